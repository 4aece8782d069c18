// Tells in which session of the day each bar opens, and how many bars of a chosen session there were.
enum Session
  {
   Night,
   Morning,
   Afternoon
  };

input Session Wanted=Morning;
input int     ShiftHours=0; // how many hours the broker's clock is ahead

int Found=0;

Session SessionOf(datetime time)
  {
   MqlDateTime at;
   TimeToStruct(time,at);
   int hour=(at.hour+24-ShiftHours)%24;
   if(hour<8)
      return(Night);
   return(hour<12 ? Morning : Afternoon);
  }

string NameOf(Session session)
  {
   string name="afternoon";
   switch(session)
     {
      case Night:
         name="night";
         break;
      case Morning:
         name="morning";
         break;
     }
   return(name);
  }

int OnInit()
  {
   return(ShiftHours<0 || ShiftHours>12 ? INIT_PARAMETERS_INCORRECT : INIT_SUCCEEDED);
  }

void OnTick()
  {
   Session session=SessionOf(TimeCurrent());
   if(session==Wanted)
      Found++;
   Print(TimeToString(TimeCurrent(),TIME_MINUTES)," ",NameOf(session));
  }

void OnDeinit(const int reason)
  {
   Print(Found," bars of the session ",EnumToString(Wanted));
  }

// Counts bullish bars, which close above their opening, among the bars so far. A bar of the list counts at each tick.
double Opens[]={1.1000,1.1012,1.1009};
double Closes[]={1.1012,1.1009,1.1021};

int Bars=0;

bool IsBullish(double open,double close)
  {
   return(close>open);
  }

// How many of the first bars are bullish.
int CountBullish(const double &opens[],const double &closes[],int bars)
  {
   int count=0;
   for(int i=0; i<bars && i<ArraySize(opens); i++)
      if(IsBullish(opens[i],closes[i]))
         count++;
   return(count);
  }

void OnTick()
  {
   Bars++;
   Print(CountBullish(Opens,Closes,Bars)," of ",Bars," bars are bullish");
  }

void OnDeinit(const int reason)
  {
   Print("the last bar closed at ",DoubleToString(Closes[ArraySize(Closes)-1],4));
  }

// A moving average over the last prices, which are kept in a ring buffer.
#define LENGTH 2

struct RingBuffer
  {
   double values[LENGTH];
   int    next;
   int    count;
   double sum;
  };

double     Prices[]={1.1000,1.1010,1.0990};
RingBuffer Ring;
int        Taken=0;

// Puts a price in the place of the oldest one.
void Add(RingBuffer &ring,double price)
  {
   ring.sum+=price-ring.values[ring.next];
   ring.values[ring.next]=price;
   ring.next=(ring.next+1)%LENGTH;
   if(ring.count<LENGTH)
      ring.count++;
  }

// The mean of the prices that are kept.
double Average(const RingBuffer &ring)
  {
   return(ring.sum/ring.count);
  }

void OnTick()
  {
   if(Taken==ArraySize(Prices))
     {
      ExpertRemove();
      return;
     }
   Add(Ring,Prices[Taken]);
   Taken++;
   Print("the average of ",Ring.count," is ",DoubleToString(Average(Ring),5));
  }

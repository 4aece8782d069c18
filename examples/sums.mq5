#include "sums.mqh"

// Prints the sum of the numbers from 1 to LAST where it is even.
void OnTick()
  {
   int sum=0;
   int n=1;
   while(n<=LAST)
     {
      sum=sum+n;
      n=n+1;
     }
   if(IS_EVEN(sum))
      Print("the numbers from 1 to ",LAST," have the sum ",sum);
  }

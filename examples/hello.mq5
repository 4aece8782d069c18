void OnTick()
{
   int n=2;
   while(n>0)
   {
      if(n%2==0) Print("n=",n);
      n=n-1;
   }
}

// What sums.mq5 uses.
#ifndef SUMS_MQH
#define SUMS_MQH

#define LAST 15
#define IS_EVEN(n) (n)%2==0

#endif

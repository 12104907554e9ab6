#include <stdio.h>

int main(int count, char **words) {
  for (int at = 1; at < count; at++)
    printf("hello %s\n", words[at]);
  return 0;
}

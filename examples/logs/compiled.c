#include <stdio.h>
#include <stdlib.h>
struct node { struct node *next; int key; };
static struct node *put(struct node *list, int key) { struct node *n = malloc(sizeof *n); n->next = list; n->key = key; return n; }
int main(int argc, char **argv) { struct node *list = 0; for (int i = 0; i < argc * 10; i++) list = put(list, i * i); int sum = 0; for (struct node *n = list; n; n = n->next) sum += n->key; printf("%d\n", sum); return 0; }

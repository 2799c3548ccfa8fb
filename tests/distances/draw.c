/* Numbers that look drawn, floats as bits, and the one instruction that the roots are held to. */
#include "draw.h"

void *memcpy(void *to, const void *from, size_t bytes);

/* A counter in steps of an odd number, whose bits are then mixed. */
uint64_t draw(void)
{
    static uint64_t counter;
    uint64_t mixed = counter += 0x9e3779b97f4a7c15;
    mixed = (mixed ^ mixed >> 30) * 0xbf58476d1ce4e5b9;
    mixed = (mixed ^ mixed >> 27) * 0x94d049bb133111eb;
    return mixed ^ mixed >> 31;
}

uint64_t draw_below(uint64_t n)
{
    return draw() % n;
}

uint64_t bits_of(double x)
{
    uint64_t bits;
    memcpy(&bits, &x, sizeof bits);
    return bits;
}

double float_of(uint64_t bits)
{
    double x;
    memcpy(&x, &bits, sizeof x);
    return x;
}

bool is_same(double left, double right)
{
    return left == left ? bits_of(left) == bits_of(right) : right != right;
}

double processor_root(double x)
{
    double root;
    __asm__("sqrtsd %1, %0" : "=x"(root) : "x"(x));
    return root;
}

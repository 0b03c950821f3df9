/* A small stack machine and its interpreter: the compiler makes a jump table of its switch. The interpreted program
   counts the steps of the Collatz sequence from each number up to 12. Then a scanner of numbers, a state machine. */
#include "common.h"
RESULTS u32 result[8];
enum { PUSH, LOAD, STORE, ADD, SUB, AND, SHR, LESS, JUMP, JZERO, DUP, POKE, HALT };
static u32 var[4], out[16];

static const signed char code[] = {
    PUSH, 1, STORE, 0,                               /*  0: n = 1 */
    LOAD, 0, STORE, 1, PUSH, 0, STORE, 2,            /*  4: x = n; steps = 0 */
    LOAD, 1, PUSH, 1, SUB, JZERO, 52,                /* 12: while x != 1 */
    LOAD, 1, PUSH, 1, AND, JZERO, 35,                /* 19:   if x is odd */
    LOAD, 1, DUP, DUP, ADD, ADD, PUSH, 1, ADD,       /* 26:     3x + 1 */
    LOAD, 1, PUSH, 1, AND, JZERO, 44,                /* 35: (even: halve) */
    STORE, 1,                                        /* 42:     x = 3x + 1 */
    LOAD, 1, SHR, STORE, 1,                          /* 44:   x = x / 2 */
    JUMP, 53, HALT,                                  /* 49 */
    HALT,                                            /* 52: replaced below */
};
static signed char ram[96];

static u32 run(const signed char *c, u32 limit)
{
    u32 stack[16], sp = 0, pc = 0, steps = 0;
    while (steps++ < limit) {
        switch (c[pc++]) {
        case PUSH:  stack[sp++] = (u32)c[pc++]; break;
        case LOAD:  stack[sp++] = var[(int)c[pc++]]; break;
        case STORE: var[(int)c[pc++]] = stack[--sp]; break;
        case ADD:   sp--; stack[sp - 1] += stack[sp]; break;
        case SUB:   sp--; stack[sp - 1] -= stack[sp]; break;
        case AND:   sp--; stack[sp - 1] &= stack[sp]; break;
        case SHR:   stack[sp - 1] >>= 1; break;
        case LESS:  sp--; stack[sp - 1] = stack[sp - 1] < stack[sp]; break;
        case JUMP:  pc = (u32)c[pc]; break;
        case JZERO: pc = stack[--sp] ? pc + 1 : (u32)c[pc]; break;
        case DUP:   stack[sp] = stack[sp - 1]; sp++; break;
        case POKE:  sp -= 2; out[stack[sp] & 15] = stack[sp + 1]; break;
        default:    return steps;
        }
    }
    return 0;
}

static u32 at;
static void emit(int a) { ram[at++] = (signed char)a; }
static void emit2(int a, int b) { emit(a); emit(b); }

static u32 collatz(void)
{
    u32 outer, loop, even, odd, done, limit = 13;
    at = 0;
    emit2(PUSH, 1); emit2(STORE, 0);
    outer = at; emit2(LOAD, 0); emit2(STORE, 1); emit2(PUSH, 0); emit2(STORE, 2);
    loop = at;  emit2(LOAD, 1); emit2(PUSH, 1); emit(SUB); emit2(JZERO, 0); done = at - 1;
    emit2(LOAD, 2); emit2(PUSH, 1); emit(ADD); emit2(STORE, 2);
    emit2(LOAD, 1); emit2(PUSH, 1); emit(AND); emit2(JZERO, 0); even = at - 1;
    odd = at;   emit2(LOAD, 1); emit(DUP); emit(DUP); emit(ADD); emit(ADD); emit2(PUSH, 1); emit(ADD); emit2(STORE, 1);
    emit2(JUMP, (int)loop);
    ram[even] = (signed char)at;
    emit2(LOAD, 1); emit(SHR); emit2(STORE, 1); emit2(JUMP, (int)loop);
    ram[done] = (signed char)at;
    emit2(LOAD, 0); emit2(LOAD, 2); emit(POKE);
    emit2(LOAD, 0); emit2(PUSH, 1); emit(ADD); emit(DUP); emit2(STORE, 0);
    emit2(PUSH, (int)limit); emit(LESS); emit2(JZERO, 0); even = at - 1;
    emit2(JUMP, (int)outer);
    ram[even] = (signed char)at;
    emit(HALT);
    return run(ram, 100000) + (odd << 24);
}

/* numbers: optional sign, digits, perhaps a point and digits, perhaps e and an exponent */
enum state { START, SIGN, INT, POINT, FRAC, EXP, EXPSIGN, EXPINT, BAD };
static u32 count[9];
static void scan(const char *s)
{
    enum state q = START;
    for (; *s; s++) {
        char c = *s;
        int digit = c >= '0' && c <= '9';
        if (c == ' ') { count[q]++; q = START; continue; }
        switch (q) {
        case START:   q = digit ? INT : c == '+' || c == '-' ? SIGN : c == '.' ? POINT : BAD; break;
        case SIGN:    q = digit ? INT : c == '.' ? POINT : BAD; break;
        case INT:     q = digit ? INT : c == '.' ? FRAC : c == 'e' ? EXP : BAD; break;
        case POINT:   q = digit ? FRAC : BAD; break;
        case FRAC:    q = digit ? FRAC : c == 'e' ? EXP : BAD; break;
        case EXP:     q = digit ? EXPINT : c == '+' || c == '-' ? EXPSIGN : BAD; break;
        case EXPSIGN: q = digit ? EXPINT : BAD; break;
        case EXPINT:  q = digit ? EXPINT : BAD; break;
        case BAD:     break;
        }
    }
    count[q]++;
}

int main(void)
{
    result[0] = run(code, 40);
    result[1] = collatz();
    result[2] = out[7] | out[9] << 8 | out[12] << 16;
    scan("12 -7 +3.25 1e10 .5e-3 - 4. 99e x12 1.2.3 6.02e+23 007 e5 -.5");
    result[3] = count[INT] | count[FRAC] << 8 | count[EXPINT] << 16;
    result[4] = count[BAD] | count[SIGN] << 8 | count[EXP] << 16;
    u32 sum = 0;
    for (int i = 0; i < 16; i++) sum = sum * 2 + out[i];
    result[5] = sum;
    return 0;
}

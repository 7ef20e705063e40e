/* What the compiler calls for products and quotients of complex numbers (a + bi, c + di), and for whole powers, in place of its own library,
   which isn't in bundles. Results are those of gcc's library for x86-64, bit for bit, but for which NaN it is. Annex G of the C standard says
   what becomes of infinities. */

#define IS_INFINITE(part) __builtin_isinf(part)
#define IS_FINITE(part) __builtin_isfinite(part)
#define IS_NONE(part) __builtin_isnan(part)
#define INFINITE __builtin_inf()
#define SIZE(part) __builtin_fabs(part)

typedef struct {
    double x, y;
} Pair;

/* A part of an infinite number: 1 where it is infinite, else 0, with its sign. */
static double boxed(double part) { return __builtin_copysign(IS_INFINITE(part) ? 1 : 0, part); }

/* A part of the other number, with 0 in the place of what isn't a number. */
static double counted(double part) { return IS_NONE(part) ? __builtin_copysign(0, part) : part; }

/* The product where both parts have come out as no number. `is_beyond` says that one of the four products is infinite. */
static Pair product_again(double a, double b, double c, double d, int is_beyond) {
    int first = IS_INFINITE(a) || IS_INFINITE(b), second;
    if (first) a = boxed(a), b = boxed(b), c = counted(c), d = counted(d);
    second = IS_INFINITE(c) || IS_INFINITE(d);
    if (second) c = boxed(c), d = boxed(d), a = counted(a), b = counted(b);
    if (!first && !second && !is_beyond) return (Pair){__builtin_nan(""), __builtin_nan("")};
    if (!first && !second) a = counted(a), b = counted(b), c = counted(c), d = counted(d);
    return (Pair){INFINITE * (a * c - b * d), INFINITE * (a * d + b * c)};
}

#define MULTIPLY(name, real) \
    real _Complex name(real a, real b, real c, real d) { \
        real _Complex made; \
        real ac = a * c, bd = b * d, ad = a * d, bc = b * c, x = ac - bd, y = ad + bc; \
        if (IS_NONE(x) && IS_NONE(y)) { \
            Pair again = product_again(a, b, c, d, IS_INFINITE(ac) || IS_INFINITE(bd) || IS_INFINITE(ad) || IS_INFINITE(bc)); \
            x = (real)again.x, y = (real)again.y; \
        } \
        __real__ made = x, __imag__ made = y; \
        return made; \
    }
MULTIPLY(__mulsc3, float)
MULTIPLY(__muldc3, double)

/* The quotient where both parts have come out as no number: by zero, of an infinite number, or by one. */
#define DIVIDE_AGAIN(name, real) \
    static Pair name(real a, real b, real c, real d) { \
        real by_zero = (real)__builtin_copysign(INFINITE, c), x = (real)__builtin_nan(""), y = x; \
        if (c == 0 && d == 0 && (!IS_NONE(a) || !IS_NONE(b))) { \
            x = by_zero * a, y = by_zero * b; \
        } else if ((IS_INFINITE(a) || IS_INFINITE(b)) && IS_FINITE(c) && IS_FINITE(d)) { \
            a = (real)boxed(a), b = (real)boxed(b); \
            x = (real)INFINITE * (a * c + b * d), y = (real)INFINITE * (b * c - a * d); \
        } else if ((IS_INFINITE(c) || IS_INFINITE(d)) && IS_FINITE(a) && IS_FINITE(b)) { \
            c = (real)boxed(c), d = (real)boxed(d); \
            x = 0 * (a * c + b * d), y = 0 * (b * c - a * d); \
        } \
        return (Pair){x, y}; \
    }
DIVIDE_AGAIN(quotient_of_floats_again, float)
DIVIDE_AGAIN(quotient_again, double)

/* With more digits and a larger range than the result's the definition serves. */
float _Complex __divsc3(float a, float b, float c, float d) {
    float _Complex made;
    double across = (double)c * c + (double)d * d;
    float x = (float)(((double)a * c + (double)b * d) / across), y = (float)(((double)b * c - (double)a * d) / across);
    if (IS_NONE(x) && IS_NONE(y)) {
        Pair again = quotient_of_floats_again(a, b, c, d);
        x = (float)again.x, y = (float)again.y;
    }
    __real__ made = x, __imag__ made = y;
    return made;
}

#define EPSILON __DBL_EPSILON__
#define LARGEST (__DBL_MAX__ / 2)
#define SMALL_BESIDE (LARGEST * EPSILON)

/* By what all parts are multiplied, so that neither the divisor's size nor its square goes out of range. |d| is at most |c|. */
static double scale_of(double a, double b, double c) {
    int has_subnormal = (SIZE(a) < __DBL_MIN__ && SIZE(b) < SMALL_BESIDE) || (SIZE(b) < __DBL_MIN__ && SIZE(a) < SMALL_BESIDE);
    if (SIZE(c) >= LARGEST) return 0.5;
    return SIZE(c) < EPSILON || (has_subnormal && SIZE(c) < SMALL_BESIDE) ? 1 / EPSILON : 1;
}

/* M. Baudin, R. L. Smith: A Robust Complex Division in Scilab. */
static Pair quotient(double a, double b, double c, double d) {
    double ratio = d / c, across = d * ratio + c;
    if (SIZE(ratio) > __DBL_MIN__) return (Pair){(b * ratio + a) / across, (b - a * ratio) / across};
    return (Pair){(a + d * (b / c)) / across, (b - d * (a / c)) / across};
}

double _Complex __divdc3(double a, double b, double c, double d) {
    double _Complex made;
    int is_turned = SIZE(c) < SIZE(d); /* then both numbers are divided by i */
    double p = is_turned ? b : a, q = is_turned ? -a : b, r = is_turned ? d : c, s = is_turned ? -c : d, scale = scale_of(p, q, r);
    Pair found;
    p *= scale, q *= scale, r *= scale, s *= scale;
    found = quotient(p, q, r, s);
    if (IS_NONE(found.x) && IS_NONE(found.y)) found = quotient_again(p, q, r, s);
    __real__ made = found.x, __imag__ made = found.y;
    return made;
}

/* By squares, as gcc's library has it, also for the order in which it rounds. */
#define POWER(name, real) \
    real name(real number, int exponent) { \
        unsigned left = exponent < 0 ? -(unsigned)exponent : (unsigned)exponent; \
        real made = left % 2 ? number : 1; \
        while (left >>= 1) { \
            number *= number; \
            if (left % 2) made *= number; \
        } \
        return exponent < 0 ? 1 / made : made; \
    }
POWER(__powisf2, float)
POWER(__powidf2, double)

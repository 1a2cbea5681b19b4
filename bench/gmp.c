/* Slash arithmetic over GMP's rationals, with the continued fraction cut in its integers.
 *
 * Inputs are good: no call here is refused. */

#include <gmp.h>
#include <stdbool.h>
#include <stdint.h>

enum class { FINITE, INFINITE, NOT_A_NUMBER };

typedef struct {
    enum class class;
    bool negative;
    bool marked;
    mpq_t size; /* where it is finite, not negative and in lowest terms */
} number;

typedef struct {
    bool fixed;
    unsigned k, slash_bits, sign_at, mark_at;
} form;

/* Kept from call to call, as a program that counts its time would keep them. */
static number left_number, right_number, result_number;
static mpz_t n, d, quotient, rest, r0, s0, r1, s1;

void gmp_start(void) {
    mpq_inits(left_number.size, right_number.size, result_number.size, NULL);
    mpz_inits(n, d, quotient, rest, r0, s0, r1, s1, NULL);
}

static form form_of(uint64_t kind, uint64_t k) {
    form made = {kind == 1, (unsigned)k, 0, 0, 0};
    while ((UINT64_C(1) << made.slash_bits) < k) {
        made.slash_bits++;
    }
    made.sign_at = made.fixed ? 2 * made.k + 1 : made.k + made.slash_bits;
    made.mark_at = made.fixed ? made.k : made.sign_at - 1;
    return made;
}

/* The stored parts of a word; 1/0 for an infinity and 0/0 for a not-a-number. */
static void parts(form f, uint64_t word, uint64_t *numerator, uint64_t *denominator) {
    uint64_t low = (UINT64_C(1) << (f.fixed ? f.k : f.k - 1)) - 1;
    if (f.fixed) {
        *numerator = word >> (f.k + 1) & low;
        *denominator = word & low;
        if (*numerator == 0) {
            *denominator &= 1;
        } else if (*denominator == 0) {
            *numerator &= 1;
        }
        return;
    }
    uint64_t e = word >> (f.k - 1) & ((UINT64_C(1) << f.slash_bits) - 1);
    if (e > f.k - 2) {
        *numerator = 1 - (word & 1);
        *denominator = 0;
        return;
    }
    *numerator = (word & low) >> e;
    *denominator = *numerator == 0 ? 1 : (word & ((UINT64_C(1) << e) - 1)) | UINT64_C(1) << e;
}

static void read_word(form f, uint64_t word, number *into) {
    uint64_t numerator, denominator;
    parts(f, word, &numerator, &denominator);
    into->negative = word >> f.sign_at & 1;
    into->marked = word >> f.mark_at & 1;
    into->class = denominator != 0 ? FINITE : numerator != 0 ? INFINITE : NOT_A_NUMBER;
    if (denominator != 0) {
        mpq_set_ui(into->size, numerator, denominator);
        mpq_canonicalize(into->size);
    }
}

static bool holds(form f, const mpz_t r, const mpz_t s) {
    size_t r_bits = mpz_sizeinbase(r, 2), s_bits = mpz_sizeinbase(s, 2);
    return f.fixed ? r_bits <= f.k && s_bits <= f.k : r_bits + s_bits <= f.k;
}

static uint64_t put(form f, bool negative, bool marked, uint64_t r, uint64_t s) {
    uint64_t top = (uint64_t)negative << f.sign_at | (uint64_t)marked << f.mark_at;
    if (f.fixed) {
        return top | r << (f.k + 1) | s;
    }
    if (s == 0) {
        return top | ((UINT64_C(1) << f.slash_bits) - 1) << (f.k - 1);
    }
    unsigned e = 63 - (unsigned)__builtin_clzll(s);
    return top | (uint64_t)e << (f.k - 1) | r << e | (s ^ UINT64_C(1) << e);
}

/* The word of the last convergent of a size that the format holds. */
static uint64_t cut(form f, const number *value) {
    mpz_set(n, mpq_numref(value->size));
    mpz_set(d, mpq_denref(value->size));
    mpz_set_ui(r0, 0);
    mpz_set_ui(s0, 1);
    mpz_set_ui(r1, 1);
    mpz_set_ui(s1, 0);
    bool changed = false;
    while (mpz_sgn(d) != 0) {
        mpz_fdiv_qr(quotient, rest, n, d);
        mpz_addmul(r0, quotient, r1);
        mpz_addmul(s0, quotient, s1);
        if (!holds(f, r0, s0)) {
            changed = true;
            break;
        }
        mpz_swap(r0, r1);
        mpz_swap(s0, s1);
        mpz_swap(n, d);
        mpz_swap(d, rest);
    }
    return put(f, value->negative, value->marked || changed, mpz_get_ui(r1), mpz_get_ui(s1));
}

static uint64_t write_word(form f, const number *value) {
    switch (value->class) {
    case FINITE:
        return cut(f, value);
    case INFINITE:
        return put(f, value->negative, value->marked, 1, 0);
    default:
        return f.fixed ? 0 : ((UINT64_C(1) << f.slash_bits) - 1) << (f.k - 1) | 1;
    }
}

/* What a word says, in the order of the header: no rational is asked for. */
void gmp_read(uint64_t kind, uint64_t k, uint64_t word, uint64_t value[5]) {
    form f = form_of(kind, k);
    parts(f, word, &value[2], &value[3]);
    bool is_number = value[2] != 0 || value[3] != 0;
    value[0] = is_number ? word >> f.sign_at & 1 : 0;
    value[1] = !is_number ? 4 : value[3] == 0 ? 3 : value[2] == 0 ? 2 : 1;
    value[4] = word >> f.mark_at & 1;
}

uint64_t gmp_write(uint64_t kind, uint64_t k, uint64_t sign, uint64_t mark, uint64_t numerator,
                   uint64_t denominator) {
    number *result = &result_number;
    result->class = FINITE;
    result->negative = sign;
    result->marked = mark;
    mpq_set_ui(result->size, numerator, denominator);
    mpq_canonicalize(result->size);
    return write_word(form_of(kind, k), result);
}

uint64_t gmp_round(uint64_t kind, uint64_t k, uint64_t numerator, uint64_t denominator) {
    return gmp_write(kind, k, 0, 0, numerator, denominator);
}

/* The word of a breath in fixed k = 15, 0 where it is void. */
uint64_t gmp_breath(uint64_t rate, uint32_t onset, uint32_t peak, uint32_t next) {
    uint32_t inward = peak - onset, whole = next - onset;
    if (whole == 0 || inward > whole || whole > 120 * rate) {
        return 0;
    }
    return gmp_round(1, 15, inward, whole);
}

static void add(number *left, number *right, number *result) {
    if (left->class == INFINITE || right->class == INFINITE) {
        bool same = left->class != right->class || left->negative == right->negative;
        result->class = same ? INFINITE : NOT_A_NUMBER;
        result->negative = left->class == INFINITE ? left->negative : right->negative;
        return;
    }
    if (left->negative) {
        mpq_neg(left->size, left->size);
    }
    if (right->negative) {
        mpq_neg(right->size, right->size);
    }
    mpq_add(result->size, left->size, right->size);
    result->negative = mpq_sgn(result->size) < 0;
    mpq_abs(result->size, result->size);
}

static void multiply(const number *left, const number *right, number *result) {
    result->negative = left->negative != right->negative;
    if (left->class == FINITE && right->class == FINITE) {
        mpq_mul(result->size, left->size, right->size);
        return;
    }
    bool zero = (left->class == FINITE && mpq_sgn(left->size) == 0) ||
                (right->class == FINITE && mpq_sgn(right->size) == 0);
    result->class = zero ? NOT_A_NUMBER : INFINITE;
}

static void divide(const number *left, const number *right, number *result) {
    result->negative = left->negative != right->negative;
    if (right->class == INFINITE) {
        result->class = left->class == INFINITE ? NOT_A_NUMBER : FINITE;
        mpq_set_ui(result->size, 0, 1);
    } else if (left->class == INFINITE) {
        result->class = INFINITE;
    } else if (mpq_sgn(right->size) == 0) {
        result->class = mpq_sgn(left->size) == 0 ? NOT_A_NUMBER : INFINITE;
    } else {
        mpq_div(result->size, left->size, right->size);
    }
}

uint64_t gmp_binary(uint64_t kind, uint64_t k, uint64_t code, uint64_t left, uint64_t right) {
    form f = form_of(kind, k);
    number *l = &left_number, *r = &right_number, *result = &result_number;
    read_word(f, left, l);
    read_word(f, right, r);
    result->class = l->class == NOT_A_NUMBER || r->class == NOT_A_NUMBER ? NOT_A_NUMBER : FINITE;
    result->marked = l->marked || r->marked;
    if (result->class == FINITE) {
        switch (code) {
        case 2:
            r->negative = !r->negative; /* fall through */
        case 1:
            add(l, r, result);
            break;
        case 3:
            multiply(l, r, result);
            break;
        default:
            divide(l, r, result);
        }
    }
    return write_word(f, result);
}

static int place(const number *value) {
    return value->class != INFINITE ? 0 : value->negative ? -1 : 1;
}

uint64_t gmp_compare(uint64_t kind, uint64_t k, uint64_t left, uint64_t right) {
    form f = form_of(kind, k);
    number *l = &left_number, *r = &right_number;
    read_word(f, left, l);
    read_word(f, right, r);
    if (l->class == NOT_A_NUMBER || r->class == NOT_A_NUMBER) {
        return 3;
    }
    int order = place(l) - place(r);
    if (l->class == FINITE && r->class == FINITE) {
        if (l->negative) {
            mpq_neg(l->size, l->size);
        }
        if (r->negative) {
            mpq_neg(r->size, r->size);
        }
        order = mpq_cmp(l->size, r->size);
    }
    return order < 0 ? 0 : order == 0 ? 1 : 2;
}

/* Floor, ceiling and mod 1 of a finite number. */
static void by_floor(uint64_t code, number *value) {
    if (value->negative) {
        mpq_neg(value->size, value->size);
    }
    mpz_ptr numerator = mpq_numref(value->size), denominator = mpq_denref(value->size);
    if (code == 4) {
        mpz_fdiv_q(numerator, numerator, denominator);
        mpz_set_ui(denominator, 1);
    } else if (code == 5) {
        mpz_cdiv_q(numerator, numerator, denominator);
        mpz_set_ui(denominator, 1);
    } else {
        mpz_fdiv_r(numerator, numerator, denominator);
    }
    value->negative = mpq_sgn(value->size) < 0;
    mpq_abs(value->size, value->size);
}

uint64_t gmp_unary(uint64_t kind, uint64_t k, uint64_t code, uint64_t operand) {
    form f = form_of(kind, k);
    number *value = &left_number;
    read_word(f, operand, value);
    if (value->class == NOT_A_NUMBER) {
        return write_word(f, value);
    }
    if (code == 1) {
        return operand ^ UINT64_C(1) << f.sign_at;
    }
    if (code == 2) {
        return operand & ~(UINT64_C(1) << f.sign_at);
    }
    if (code == 3) {
        if (value->class == INFINITE) {
            value->class = FINITE;
            mpq_set_ui(value->size, 0, 1);
        } else if (mpq_sgn(value->size) == 0) {
            value->class = INFINITE;
        } else {
            mpq_inv(value->size, value->size);
        }
    } else if (code < 7 && value->class == FINITE) {
        by_floor(code, value);
    } else if (code == 6) {
        value->class = NOT_A_NUMBER;
    }
    return write_word(f, value);
}

uint64_t gmp_common_divisor(uint64_t kind, uint64_t k, uint64_t operand) {
    uint64_t numerator, denominator;
    parts(form_of(kind, k), operand, &numerator, &denominator);
    if (numerator == 0 || denominator == 0) {
        return 0;
    }
    mpz_set_ui(n, numerator);
    return mpz_gcd_ui(NULL, n, denominator);
}

uint64_t gmp_convert(uint64_t kind, uint64_t k, uint64_t to_kind, uint64_t to_k, uint64_t operand) {
    read_word(form_of(kind, k), operand, &left_number);
    return write_word(form_of(to_kind, to_k), &left_number);
}

uint64_t gmp_quotients(uint64_t kind, uint64_t k, uint64_t operand, uint32_t *list) {
    number *value = &left_number;
    read_word(form_of(kind, k), operand, value);
    if (value->class != FINITE) {
        return 0;
    }
    uint64_t count = 0;
    mpz_set(n, mpq_numref(value->size));
    mpz_set(d, mpq_denref(value->size));
    while (mpz_sgn(d) != 0) {
        mpz_fdiv_qr(quotient, rest, n, d);
        list[count++] = (uint32_t)mpz_get_ui(quotient);
        mpz_swap(n, d);
        mpz_swap(d, rest);
    }
    return count;
}

/* The calls of {fmt} that are timed, in loops like those of calls.c: formats read at run time, and formats compiled with the program. Neither
   looks at how much memory is lent. */
#include <cstddef>
#include <cstdint>
#include <string_view>
#include <utility>

#include <fmt/compile.h>
#include <fmt/format.h>

/* A row's values; the order is that of `Values` in fmt.rs. n: its integers; f: its float; s: its text; b: its Boolean. */
struct values {
    const int *n;
    double f;
    const char *s;
    size_t s_len;
    bool b;
};

namespace {

/* What a row hands to {fmt}; the order is that of `Shape` in rows.rs. */
enum shape { NOTHING, INTEGER, FLOATING, TEXT, SHEET, FOUR, FIFTEEN, THIRTY };

/* Makes the calls. For the compiler each of them reads other values, and its text is used: else it might take work out of the loop. */
template <class Call>
uint64_t repeat(char *out, uint64_t calls, Call call)
{
    uint64_t sum = 0;
    for (uint64_t i = 0; i < calls; i++) {
        char *end = call();
        __asm__ volatile("" : : "r"(out) : "memory");
        sum += (uint64_t)(end - out) + (unsigned char)out[0];
    }
    return sum;
}

template <class... Values>
uint64_t runtime(fmt::string_view format, char *out, uint64_t calls, const Values &...values)
{
    return repeat(out, calls, [&] { return fmt::vformat_to(out, format, fmt::make_format_args(values...)); });
}

template <size_t... I>
uint64_t runtime_integers(fmt::string_view format, char *out, uint64_t calls, const int *n, std::index_sequence<I...>)
{
    return runtime(format, out, calls, n[I]...);
}

template <class Format, class... Values>
uint64_t compiled(const Format &format, char *out, uint64_t calls, const Values &...values)
{
    return repeat(out, calls, [&] { return fmt::format_to(out, format, values...); });
}

template <class Format, size_t... I>
uint64_t compiled_integers(const Format &format, char *out, uint64_t calls, const int *n, std::index_sequence<I...>)
{
    return compiled(format, out, calls, n[I]...);
}

} // namespace

/* Literals that make up formats of rows.rs. */
#define FIVE(text) text text text text text
#define FIFTEEN_TIMES(text) FIVE(text) FIVE(text) FIVE(text)
#define PLAIN FIVE("gate position text ") FIVE("gate position text ") "gate posit"

extern "C" uint64_t bench_fmt(int shape, const char *format, size_t format_len, const struct values *v, char *out,
                              uint64_t calls) noexcept
{
    fmt::string_view f(format, format_len);
    fmt::string_view s(v->s, v->s_len);
    const int *n = v->n;
    switch ((enum shape)shape) {
    case NOTHING:
        return runtime(f, out, calls);
    case INTEGER:
        return runtime(f, out, calls, n[0]);
    case FLOATING:
        return runtime(f, out, calls, v->f);
    case TEXT:
        return runtime(f, out, calls, s);
    case SHEET:
        return runtime(f, out, calls, n[0], n[1], n[2], v->b, s);
    case FOUR:
        return runtime(f, out, calls, n[0], n[1], n[2], n[3]);
    case FIFTEEN:
        return runtime_integers(f, out, calls, n, std::make_index_sequence<15>());
    case THIRTY:
        return runtime_integers(f, out, calls, n, std::make_index_sequence<30>());
    }
    return 0;
}

/* 0 where there is no such format here. */
extern "C" uint64_t bench_fmt_compiled(const char *format, size_t format_len, const struct values *v, char *out,
                                       uint64_t calls) noexcept
{
    std::string_view f(format, format_len);
    fmt::string_view s(v->s, v->s_len);
    const int *n = v->n;
#define COMPILED(text, ...) \
    if (f == text) \
        return compiled(FMT_COMPILE(text), out, calls, ##__VA_ARGS__)
#define COMPILED_INTEGERS(text, count) \
    if (f == text) \
        return compiled_integers(FMT_COMPILE(text), out, calls, n, std::make_index_sequence<count>())
    COMPILED("gate {:d} pos {:08x} delay {:d} open {} name {:<12s}", n[0], n[1], n[2], v->b, s);
    COMPILED("{:<20d}|{:10d}|{:#x}|{:o}", n[0], n[1], n[2], n[3]);
    COMPILED("{}", n[0]);
    COMPILED("{:x}", n[0]);
    COMPILED("{:a}", v->f);
    COMPILED("{:.6a}", v->f);
    COMPILED("{:>20.8s}", s);
    COMPILED_INTEGERS(FIFTEEN_TIMES("{} "), 15);
    COMPILED_INTEGERS(FIFTEEN_TIMES("{}") FIFTEEN_TIMES("{}"), 30);
    COMPILED(PLAIN);
    COMPILED("{:10000d}", n[0]);
    return 0;
}

/* As 90100 for 9.1.0. */
extern "C" int bench_fmt_version(void)
{
    return FMT_VERSION;
}

"""Names in C: those that a file may not give to a function or parameter, and the types of values."""
import re

KEYWORDS = """auto break case char const continue default do double else enum extern float for goto if inline int long register
restrict return short signed sizeof static struct switch typedef union unsigned void volatile while bool true false asm main"""
LIBRARY = """abort abs aligned_alloc asctime at_quick_exit atexit atof atoi atol atoll bsearch btowc calloc clearerr clock
clock_gettime ctime difftime div exit fclose feof ferror fflush fgetc fgetpos fgets fgetwc fgetws fopen fprintf fputc fputs fputwc
fputws fread free freopen fscanf fseek fsetpos ftell fwide fwprintf fwrite fwscanf getc getchar getenv gets getwc getwchar gmtime
labs ldiv llabs lldiv localeconv localtime longjmp malloc mblen mbrlen mbrtowc mbsinit mbsrtowcs mbstowcs mbtowc memchr memcmp memcpy
memmove memset mktime perror printf putc putchar puts putwc putwchar qsort quick_exit raise rand realloc remove rename rewind scanf
setbuf setjmp setlocale setvbuf signal snprintf sprintf srand sscanf stderr stdin stdout system time timespec_get tmpfile tmpnam
towctrans towlower towupper ungetc ungetwc vfprintf vfscanf vfwprintf vfwscanf vprintf vscanf vsnprintf vsprintf vsscanf vswprintf
vswscanf vwprintf vwscanf wcrtomb wctob wctomb wctrans wctype wmemchr wmemcmp wmemcpy wmemmove wmemset wprintf wscanf swprintf
swscanf iswctype tolower toupper"""
MATHEMATICS = """acos acosh asin asinh atan atan2 atanh cbrt ceil copysign cos cosh erf erfc exp exp2 expm1 fabs fdim floor fma fmax
fmin fmod frexp hypot ilogb ldexp lgamma llrint llround log log10 log1p log2 logb lrint lround modf nan nearbyint nextafter nexttoward
pow remainder remquo rint round scalbln scalbn sin sinh sqrt tan tanh tgamma trunc cabs cacos cacosh carg casin casinh catan catanh
ccos ccosh cexp cimag clog conj cpow cproj creal csin csinh csqrt ctan ctanh"""
TEXTS = """strcat strchr strcmp strcoll strcpy strcspn strerror strftime strlen strncat strncmp strncpy strpbrk strrchr strspn strstr
strtod strtof strtok strtol strtold strtoll strtoul strtoull strxfrm isalnum isalpha isblank iscntrl isdigit isgraph islower isprint
ispunct isspace isupper isxdigit FILE NULL EOF BUFSIZ size_t ptrdiff_t wchar_t max_align_t time_t clock_t fpos_t div_t ldiv_t lldiv_t"""
OURS = """await ended group header judge_answer lanes lines main nothing print_line start_together started tell threads"""
TAKEN = frozenset(
    [*KEYWORDS.split(), *LIBRARY.split(), *TEXTS.split(), *OURS.split(), *[name + end for name in MATHEMATICS.split() for end in ("", "f", "l")]]
)
PATTERNS = re.compile(
    r"_.*|(?:lane|body|ended|group)_\d+|(?:isw|wcs)[a-z]+|(?:cnd|mtx|thrd|tss|sched|pthread|atomic|memory_order)_.*|u?int\w*_t"
    r"|(?:U?INT|EXIT|SEEK|ATOMIC|PTHREAD|SCHED|CLOCK|CLOCKS|TIMER|TIME|RAND|SIZE|PTRDIFF|WCHAR|WINT|SIG|OWN|CLONE)\w*_\w*"
)


def is_free(name):
    """Whether a function or parameter may have the name in a file."""
    return name not in TAKEN and not PATTERNS.fullmatch(name)


def names_of(functions):
    """The name in C of each function: its own, with its component's before it where two components have one of that name, and
    `target_` before that where C, its library or the file has it."""
    given, shared = {}, [function.name for function in functions]
    for function in functions:
        name = function.name
        if shared.count(name) > 1 and function.component:
            name = f"{function.component}_{name}"
        while not is_free(name) or name in given.values():
            name = f"target_{name}"
        given[function] = name
    return given


def type_of(kind, span):
    """The type of values in C."""
    if kind == "bool":
        return "bool"
    width = next(bits for bits in (8, 16, 32, 64) if fits(span, bits))
    return f"int{width}_t" if span[0] < 0 else f"uint{width}_t"


def fits(span, bits):
    least, greatest = widest(span, bits)
    return least <= span[0] and span[1] <= greatest


def widest(span, bits):
    return (-(2 ** (bits - 1)), 2 ** (bits - 1) - 1) if span[0] < 0 else (0, 2**bits - 1)


def has_more(kind, span):
    """Whether the type in C has values outside the span."""
    return kind != "bool" and not any(widest(span, bits) == span for bits in (8, 16, 32, 64))


def literal(kind, value):
    """A value as it is written."""
    return ("true" if value else "false") if kind == "bool" else str(value)


def quoted(text):
    """A text as it is written."""
    return '"' + re.sub(r'["\\?]', r"\\\g<0>", text) + '"'

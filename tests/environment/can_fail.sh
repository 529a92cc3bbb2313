#!/bin/sh
# Shows that run.sh can fail: it must pass on a copy of the files that it reads, and refuse each change below made in such a copy;
# instructions.py must refuse each archive below.
set -eu
name=environment
files=include
# shellcheck source=tests/common/can_fail.sh
. "$(dirname "$0")/../common/can_fail.sh"

# refused_code WHAT TEXT: an archive with a member more, compiled from TEXT, and its symbols local.
refused_code() {
    cp "$archive" "$work/more.a"
    printf '%s\n' "$2" | gcc -O1 -mfma -fno-pie -ffunction-sections -x c -c - -o "$work/more.o"
    objcopy --localize-symbol=more "$work/more.o"
    ar r "$work/more.a" "$work/more.o"
    must_fail "$1" python3 "$here/instructions.py" "$work/more.a"
}

# refused_names WHAT OLD NEW: an archive in which two functions have exchanged their names.
refused_names() {
    objcopy --redefine-sym "$2=exchanged" "$archive" "$work/once.a"
    objcopy --redefine-sym "$3=$2" "$work/once.a" "$work/twice.a"
    objcopy --redefine-sym "exchanged=$3" "$work/twice.a" "$work/exchanged.a"
    must_fail "$1" python3 "$here/instructions.py" "$work/exchanged.a"
}

env=include/micro_price_env.h
header=include/micro_price.h
passes
refused "a control word that flushes results to zero" $env '0x1f80u' '0x9f80u'
refused "a control word that takes subnormals as zero" $env '0x1f80u' '0x1fc0u'
refused "a control word that rounds up" $env '0x1f80u' '0x5f80u'
refused "a control word that unmasks inexact results" $env '0x1f80u' '0x0f80u'
refused "a control word that unmasks subnormals" $env '0x1f80u' '0x1e80u'
refused "set, which sets nothing" $env '    micro_price_env_restore(MICRO_PRICE_ENV_WORD);
' ''
refused "set, which answers what it has set" $env 'return was;' 'return MICRO_PRICE_ENV_WORD;'
refused "restore, which puts nothing back" $env '("ldmxcsr %0" : : "m"(was) : "memory")' '("" : : "m"(was) : "memory")'
refused "no word of other machines" $env '#error "micro_price_env.h sets the control word of x86-64"' ''
refused "less stack than is used" $header 'micro_price_calibrate         13264' 'micro_price_calibrate         13256'
refused "more than twice the stack" $header 'micro_price_observe           240' 'micro_price_observe           490'
refused "a function without its stack" $header ' *   micro_price_new               128
' ''
refused "a fit with rounds that takes no more stack than one without" $header 'micro_price_fit_counts_with   4752' \
    'micro_price_fit_counts_with   4736'

refused_names "a float instruction in observe" micro_price_observe micro_price_calibrate
refused_names "no float instruction in signal" micro_price_signal micro_price_window_of
refused_names "no float instruction in fit_counts_with" micro_price_fit_counts_with micro_price_validate
refused_code "an x87 instruction" 'long double more(long double x) { return x + 1; }'
refused_code "a fused multiply-add" 'double more(double x) { return __builtin_fma(x, x, x); }'
refused_code "an instruction that sets the control word" 'void more(unsigned w) { __builtin_ia32_ldmxcsr(w); }'
refused_code "a call through a pointer" 'int more(int (*f)(void)) { return f() + 1; }'
refused_code "a jump to a place that the caller lends" '__asm__(".section .text.more, \"ax\"\nmore: jmp *(%rdi)");'
refused_code "a jump by a table that the caller lends" \
    '__asm__(".section .text.more, \"ax\"\nmore: movslq (%rdi,%rsi,4),%rax\nadd %rdi,%rax\njmp *%rax");'
by_table='__asm__(".section .rodata\ntable: .long 0");
__asm__(".section .text.more, \"ax\"\nmore: lea table(%rip),%rcx\nmovslq (%rcx,%rsi,4),%rax'
refused_code "a jump to an entry of a table without the table's address" "$by_table\\njmp *%rax\");"
refused_code "a jump by a table to a place that the caller lends" "$by_table\\nadd %rcx,%rax\\nmov %rdi,%rax\\njmp *%rax\");"
refused_code "a jump by a table after a string instruction" \
    '__asm__(".section .rodata\ntable: .long 0");
__asm__(".section .text.more, \"ax\"\nmore: lea table(%rip),%rcx\nmovslq (%rcx,%rax,4),%rsi\nadd %rcx,%rsi\nmovsq\njmp *%rsi");'
refused_code "data that is kept between calls" 'int more(void) { static int calls; return ++calls; }'
refused_code "a call of another library" 'int rand(void);
int more(void) { return rand() + 1; }'
exit $missed

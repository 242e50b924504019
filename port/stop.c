/*
 * Where a check fails in a build that has checks. The proofs say that this is never reached. It is weak, so that a program
 * can define its own.
 */
_Noreturn void zk_stop(void);

__attribute__((weak)) _Noreturn void zk_stop(void)
{
    __builtin_trap();
}

/* Starts the build of rmdsum that the processor can run. Both are of the same proved source. A compiler that can't ask
 * for a level takes the build for every x86-64. */

int main_x86_64(int argc, char **argv);
int main_x86_64_v3(int argc, char **argv);

int main(int argc, char **argv)
{
#if !defined __clang__ && __GNUC__ >= 12
    if (__builtin_cpu_supports("x86-64-v3"))
        return main_x86_64_v3(argc, argv);
#endif
    return main_x86_64(argc, argv);
}

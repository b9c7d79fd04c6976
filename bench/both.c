/*
 * One program with both sides in it, so that both are measured alike: crates/benchrun, its main renamed lobrinkas_main, and
 * plain.c over second/; and hosts.c, which has the calls over the image of both.  Called by the name `plain` it is the plain
 * C, and by any other it is ours.  The argument `image-step`, `image-run` or `image-why` asks for the image; else arguments are
 * those of benchrun.  Input and output are benchrun's too, but for the image, which is printed in place of the channel.
 */
#include <stdbool.h>
#include <string.h>

int lobrinkas_main(int argc, char **argv);
int plain_main(int argc, char **argv);
int host_main(bool is_plain, const char *call);

int main(int argc, char **argv)
{
    const char *slash = strrchr(argv[0], '/');
    const char *name = slash ? slash + 1 : argv[0];
    const char *call = argc > 1 ? argv[1] : "";
    bool is_plain = strcmp(name, "plain") == 0;
    if (strncmp(call, "image-", 6) == 0)
        return host_main(is_plain, call);
    return is_plain ? plain_main(argc, argv) : lobrinkas_main(argc, argv);
}

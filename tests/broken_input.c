/* Runs a program on a standard input that gives 55 bytes and then cannot be
   read. Use: broken_input PROGRAM. The input is this program's own memory up
   to the end of a page with nothing behind it. */
#define _DEFAULT_SOURCE
#include <fcntl.h>
#include <stdint.h>
#include <stdio.h>
#include <sys/mman.h>
#include <sys/wait.h>
#include <unistd.h>

#define BYTES 55

static int broken(size_t page)
{
    uint8_t *pages = mmap(NULL, 2 * page, PROT_READ, MAP_PRIVATE | MAP_ANONYMOUS, -1, 0);
    int fd = open("/proc/self/mem", O_RDONLY);

    if (pages == MAP_FAILED || fd < 0 || munmap(pages + page, page) != 0
        || lseek(fd, (off_t)(uintptr_t)(pages + page - BYTES), SEEK_SET) < 0)
        return -1;
    return fd;
}

int main(int argc, char **argv)
{
    int fd = broken((size_t)sysconf(_SC_PAGESIZE));
    int status = 0;
    pid_t child;

    if (argc != 2 || fd < 0) {
        fprintf(stderr, "use: broken_input PROGRAM, where /proc/self/mem can be read\n");
        return 126;
    }
    child = fork();
    if (child == 0) {
        dup2(fd, STDIN_FILENO);
        execl(argv[1], argv[1], (char *)NULL);
        _exit(127);
    }
    if (child < 0 || waitpid(child, &status, 0) < 0)
        return 126;
    return WIFEXITED(status) ? WEXITSTATUS(status) : 128;
}

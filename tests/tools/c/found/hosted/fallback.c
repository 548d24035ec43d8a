/* Looks for what a system may lack, and does without. */
#include <bsp.h>
#include <dirent.h>
#include <dlfcn.h>
#include <stdio.h>
#include <stdlib.h>
#include <string.h>
#include <sys/ioctl.h>
#include <sys/socket.h>
#include <termios.h>
#include <unistd.h>

static int width(void)
{
    struct winsize size;
    return ioctl(STDOUT_FILENO, TIOCGWINSZ, &size) == 0 && size.ws_col > 0 ? size.ws_col : 80;
}

static int files_of(const char *folder)
{
    struct dirent *entry;
    int count = 0;
    DIR *dir = opendir(folder);
    if (dir == NULL)
        return -1;
    while ((entry = readdir(dir)) != NULL)
        count++;
    closedir(dir);
    return count;
}

int main(void)
{
    struct termios terminal;
    bsp_begin(bsp_nprocs());
    printf("%d columns, %s\n", width(), tcgetattr(0, &terminal) == 0 ? "a terminal" : "no terminal");
    printf("%s, %s\n", files_of("/no/such/folder") < 0 ? "no folder" : "a folder", dlopen("libabsent.so", RTLD_NOW) ? "a library" : "no library");
    bsp_end();
    return 0;
}

#error "<dirent.h> is not here: there are no folders in a sandbox: read stdin, write stdout"

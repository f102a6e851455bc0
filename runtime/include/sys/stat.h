#error "<sys/stat.h> is not here: there are no files in a sandbox: read stdin, write stdout"

#error "<sys/socket.h> is not here: there is no network in a sandbox: read stdin, write stdout"

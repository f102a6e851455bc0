/* libmd's configuration: nothing is asked for. */

/* jansson's configuration: no header but the standard ones is asked for. */

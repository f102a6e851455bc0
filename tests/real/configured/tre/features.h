/* musl asks for it, and wants nothing of it. */

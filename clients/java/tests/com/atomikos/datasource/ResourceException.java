package com.atomikos.datasource;

/** Atomikos' exception of this name, as far as the tests need it: its jar isn't in Debian. */
public class ResourceException extends RuntimeException {
    private static final long serialVersionUID = 1;

    public ResourceException(String message, Exception cause) {
        super(message, cause);
    }
}

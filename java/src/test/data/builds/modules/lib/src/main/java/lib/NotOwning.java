package lib;

/** Says that the caller does not own the result. Annotations are known by their simple names. */
public @interface NotOwning {}

package lib;

/** Says that a field owns what it holds. Annotations are known by their simple names. */
public @interface Owning {}

package witness;

/** An object whose class makes the methods of {@code Object} calls of the library. */
public interface Hook {}

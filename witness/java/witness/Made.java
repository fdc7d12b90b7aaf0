package witness;

/** Marks the constructor by which the runtime itself makes an object of a library class. */
public final class Made {
  private Made() {}
}

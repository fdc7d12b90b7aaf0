package witness;

/**
 * The root of program and library classes on the Java machine: it tells the runtime of each object, and makes the methods of
 * {@code Object} calls of the library, as they are in a run of {@code rlc}.
 */
public class Hooked implements Hook {
  /** An object of the library. */
  public Hooked(Made made) {}

  /** An object of a program class, whose number the token has. */
  public Hooked(Token token) {
    Machine.adopt(this, token);
  }

  @Override
  public boolean equals(Object other) {
    return (boolean) Machine.call("Object.equals", this, other);
  }

  @Override
  public int hashCode() {
    return (int) Machine.call("Object.hashCode", this);
  }

  @Override
  public String toString() {
    return (String) Machine.call("Object.toString", this);
  }
}

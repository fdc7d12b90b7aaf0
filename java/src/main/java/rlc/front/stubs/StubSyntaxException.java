package rlc.front.stubs;

/** Says that a stub file is not in the form of stub files, and where. */
public final class StubSyntaxException extends Exception {
  private static final long serialVersionUID = 1L;

  /** With what was found and its place. */
  public StubSyntaxException(String message) {
    super(message);
  }
}

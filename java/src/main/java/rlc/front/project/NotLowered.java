package rlc.front.project;

/**
 * Says that a body, or a part of it, cannot be lowered, and why. The body is then named as not
 * checked.
 */
public final class NotLowered extends RuntimeException {
  private static final long serialVersionUID = 1L;

  /** With the reason, in words that fit behind "not checked:". */
  public NotLowered(String reason) {
    super(reason, null, false, false);
  }

  /** Why a body is not checked: for what lowering cannot do, or for a fault of the front in it. */
  public static String reasonOf(Throwable thrown) {
    return thrown instanceof NotLowered ? thrown.getMessage() : "the front failed on it: " + thrown;
  }
}

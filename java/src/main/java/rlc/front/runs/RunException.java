package rlc.front.runs;

/** Says that {@code rlc} gave no answer, and why. Nothing is known of the program then. */
public final class RunException extends Exception {
  private static final long serialVersionUID = 1L;
  private static final int MOST_QUOTED = 200;

  /** With the cause, as a sentence. */
  public RunException(String message) {
    super(message);
  }

  /** The first line of a text that {@code rlc} wrote, as far as it can be shown. */
  public static String quote(String text) {
    String line = text.strip().lines().findFirst().orElse("").replaceAll("[^ -~]", "?");
    return line.length() <= MOST_QUOTED ? line : line.substring(0, MOST_QUOTED) + "..";
  }
}

package witness;

/** The number of an object of a program class, which is given when its {@code new} begins. */
public final class Token {
  final int number;

  Token(int number) {
    this.number = number;
  }
}

package lib;

import java.io.Closeable;
import java.io.FileInputStream;
import java.io.IOException;
import java.io.InputStream;

/** A resource of the library, that owns another. */
public final class Pipe implements Closeable {
  @Owning private final InputStream in;

  /** Opens a file. */
  public Pipe(String name) throws IOException {
    this.in = new FileInputStream(name);
  }

  /** The next byte. */
  public int next() throws IOException {
    return in.read();
  }

  /** What the pipe reads; the pipe goes on to own it. */
  @NotOwning
  public InputStream source() {
    return in;
  }

  /** Another pipe. */
  public static Pipe open(String name) throws IOException {
    return new Pipe(name);
  }

  /** Reads one byte, and leaks. */
  public static int first(String name) throws IOException {
    InputStream in = new FileInputStream(name); // leak
    return in.read();
  }

  @Override
  @EnsuresCalledMethods(value = "this.in", methods = "close")
  public void close() throws IOException {
    in.close();
  }
}

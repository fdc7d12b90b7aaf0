package app;

import java.io.IOException;
import lib.Pipe;

/** Uses the library's resource. */
final class Main {
  int leaks(String name) throws IOException {
    Pipe pipe = Pipe.open(name); // leak
    return pipe.next();
  }

  int closes(String name) throws IOException {
    try (Pipe pipe = new Pipe(name)) {
      return pipe.next() + pipe.source().read();
    }
  }
}

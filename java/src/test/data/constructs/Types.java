import java.io.*;
import java.util.*;

/** Interfaces, enums, records, generics, inheritance. */
class Types {
  int n;

  interface Source<R extends Closeable> {
    R open(String k) throws IOException;

    default R twice(String k) throws IOException {
      open(k).close();
      return open(k);
    }

    default void lose(String k) throws IOException {
      open(k); // leak
    }

    static InputStream plain(String k) throws IOException {
      return new FileInputStream(k);
    }

    private void hidden(String k) throws IOException {
      new FileInputStream(k).close();
    }
  }

  void sourceLeak(Source<FileInputStream> s) throws IOException {
    s.open("x"); // leak
  }

  void sourceOk(Source<FileInputStream> s) throws IOException {
    FileInputStream in = s.open("x");
    in.close();
    Source.plain("y").close();
  }

  enum Kind {
    A,
    B {
      @Override
      int read() throws IOException {
        return new FileInputStream("b").read(); // leak
      }
    };

    int read() throws IOException {
      try (InputStream in = new FileInputStream("a")) {
        return in.read();
      }
    }
  }

  record Pair(InputStream left, int right) {
    Pair {
      if (right < 0) {
        throw new IllegalArgumentException("right");
      }
    }

    int sum() throws IOException {
      return left.read() + right;
    }
  }

  void recordLeak() throws IOException {
    Pair p = new Pair(new FileInputStream("x"), 1); // leak
  }

  void recordOk() throws IOException {
    try (InputStream in = new FileInputStream("x")) {
      n += new Pair(in, 2).sum();
    }
  }

  abstract static class Base implements Closeable {
    abstract InputStream make() throws IOException;

    int first() throws IOException {
      try (InputStream in = make()) {
        return in.read();
      }
    }

    void lose() throws IOException {
      make(); // leak
    }
  }

  static class Derived extends Base {
    @Override
    InputStream make() throws IOException {
      return new FileInputStream("x");
    }

    @Override
    public void close() {
    }
  }

  void derivedOk() throws IOException {
    try (Derived d = new Derived()) {
      n += d.first();
    }
  }

  void derivedLeak() throws IOException {
    Base b = new Derived(); // leak
    b.first();
    b.close();
  }

  void supplierThrowsOk(Optional<String> o) throws IOException {
    InputStream in = new FileInputStream("x");
    try {
      o.orElseThrow(() -> new IOException("none"));
    } finally {
      in.close();
    }
  }

  void supplierThrowsLeak(Optional<String> o) throws IOException {
    InputStream in = new FileInputStream("x"); // leak
    o.orElseThrow(() -> new IOException("none"));
    in.close();
  }

  void supplierThrowsUncheckedLeak(Optional<String> o) throws IOException {
    InputStream in = new FileInputStream("x"); // leak
    o.orElseThrow(NoSuchElementException::new);
    in.close();
  }

  static <E extends Exception> void raise(Exception e) throws E {
    throw (E) e;
  }

  <T extends Closeable> void genericCloseOk(T t) throws IOException {
    t.close();
  }

  <T extends Reader & Serializable> void boundedOk(T t) throws IOException {
    try (t) {
      t.read();
    }
  }

  void byteArraysOk() {
    ByteArrayOutputStream out = new ByteArrayOutputStream();
    out.write(1);
    StringWriter w = new StringWriter();
    w.write("x");
  }

  InputStream byteArrayGivenOk(byte[] b) {
    return new ByteArrayInputStream(b);
  }

  @interface Marker {
    String value() default "x";
  }
}

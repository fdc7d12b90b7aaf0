import java.io.*;
import java.util.*;
import java.util.concurrent.Callable;
import java.util.function.*;

/** Lambda expressions, method references, anonymous and local classes. */
class Lambdas {
  int n;

  interface Opener {
    InputStream open(String k) throws IOException;
  }

  static class Closing implements Closeable {
    @Override
    public void close() {
    }
  }

  interface Taker {
    void take(InputStream in) throws IOException;
  }

  void blockLeak() {
    Callable<Integer> c = () -> {
      InputStream in = new FileInputStream("x"); // leak
      return in.read();
    };
  }

  void blockOk() {
    Callable<Integer> c = () -> {
      try (InputStream in = new FileInputStream("x")) {
        return in.read();
      }
    };
  }

  void expressionOk() {
    Opener o = k -> new FileInputStream(k);
  }

  void expressionGenericLeak() {
    Callable<InputStream> c = () -> new FileInputStream("x"); // leak
  }

  void voidExpressionLeak() {
    Taker t = in -> new FileInputStream("x"); // leak
  }

  void parameterOk() {
    Taker t = in -> in.close();
  }

  void useOpenerLeak(Opener o) throws IOException {
    o.open("x"); // leak
  }

  void useOpenerOk(Opener o) throws IOException {
    o.open("x").close();
  }

  void capturedLeak() throws IOException {
    InputStream in = new FileInputStream("x"); // leak
    Runnable r = () -> {
      try {
        in.close();
      } catch (IOException e) {
        n++;
      }
    };
    r.run();
  }

  void capturedOk() throws IOException {
    try (InputStream in = new FileInputStream("x")) {
      Supplier<Integer> s = () -> in.hashCode();
      n += s.get();
    }
  }

  void nestedLambdaLeak() {
    Supplier<Callable<Integer>> s = () -> () -> new FileInputStream("x").read(); // leak
  }

  void nestedCaptureOk(InputStream in) {
    Supplier<Callable<Integer>> s = () -> () -> in.read();
  }

  void constructorReferenceOk() {
    Opener o = FileInputStream::new;
  }

  void constructorReferenceLeak() {
    Supplier<Closing> s = Closing::new; // leak
  }

  void methodReferenceOk() {
    Opener o = Lambdas::opened;
    Taker t = InputStream::close;
  }

  void methodReferenceLeak() {
    Taker t = this::reopened; // leak
  }

  InputStream reopened(InputStream in) throws IOException {
    return new FileInputStream("x");
  }

  void boundReferenceLeak() throws IOException {
    Supplier<String> s = new FileInputStream("x")::toString; // leak
  }

  static InputStream opened(String k) throws IOException {
    return new FileInputStream(k);
  }

  void anonymousLeak() {
    Runnable r = new Runnable() {
      @Override
      public void run() {
        try {
          new FileInputStream("y").read(); // leak
        } catch (IOException e) {
          n++;
        }
      }
    };
    r.run();
  }

  void anonymousResourceLeak() throws IOException {
    InputStream in = new InputStream() { // leak
      @Override
      public int read() {
        return 1;
      }
    };
  }

  void anonymousResourceOk() throws IOException {
    try (InputStream in = new InputStream() {
      @Override
      public int read() {
        return 1;
      }
    }) {
      n += in.read();
    }
  }

  void anonymousCaptureOk(InputStream in) {
    Taker t = new Taker() {
      final InputStream mine = in;

      @Override
      public void take(InputStream other) throws IOException {
        mine.close();
        in.close();
        other.close();
      }
    };
  }

  void localClassLeak() throws IOException {
    class Local {
      int get() throws IOException {
        return new FileInputStream("x").read(); // leak
      }
    }
    new Local().get();
  }

  class Inner {
    void leak() throws IOException {
      new FileInputStream("x").read(); // leak
    }

    InputStream get() throws IOException {
      n++;
      return new FileInputStream("x");
    }
  }

  void innerLeak() throws IOException {
    Inner i = this.new Inner();
    i.get(); // leak
  }

  void innerOk() throws IOException {
    new Inner().get().close();
  }

  Runnable fieldLambda = () -> {
    try {
      new FileInputStream("z"); // leak
    } catch (IOException e) {
      n++;
    }
  };

  static {
    try {
      new FileInputStream("z").read(); // leak
    } catch (IOException e) {
      System.err.println(e);
    }
  }

  {
    try (InputStream in = new FileInputStream("z")) {
      n++;
    } catch (IOException e) {
      n--;
    }
  }

  static final InputStream KEEP = make(); // leak

  static InputStream make() {
    return new InputStream() {
      @Override
      public int read() {
        return 0;
      }
    };
  }
}

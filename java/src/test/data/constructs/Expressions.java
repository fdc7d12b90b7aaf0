import java.io.*;
import java.util.*;

/** Expressions: operands in their order, assignments, arrays, calls, creations. */
class Expressions {
  int n;
  InputStream field;
  static InputStream kept;

  void droppedLeak(String k) throws IOException {
    new FileInputStream(k); // leak
  }

  void droppedResultLeak(String k) throws IOException {
    opened(k); // leak
  }

  static InputStream opened(String k) throws IOException {
    return new FileInputStream(k);
  }

  void chainLeak(String k) throws IOException {
    n = new BufferedReader(
        new FileReader(k)).readLine().length(); // leak
  }

  void argumentOrderLeak(String k) throws IOException {
    take(new FileInputStream(k), parse(k)); // leak
  }

  int parse(String k) throws IOException {
    return 1;
  }

  void take(InputStream in, int k) {
  }

  void concatLeak(String k) throws IOException {
    String s = "a" + new FileInputStream(k); // leak
  }

  void compoundLeak(int[] a) throws IOException {
    a[new FileInputStream("x").read()] += 2; // leak
  }

  void incrementLeak(int[] a) throws IOException {
    a[new FileInputStream("x").read()]++; // leak
  }

  void arrayStoreLeak(String k) throws IOException {
    InputStream[] a = new InputStream[2];
    a[0] = new FileInputStream(k); // leak
    a[0].close();
  }

  void arrayInitialiserLeak(String k) throws IOException {
    InputStream[] a = {new FileInputStream(k), null}; // leak
  }

  void arrayOfHeldOk(String k) throws IOException {
    try (InputStream in = new FileInputStream(k)) {
      InputStream[] a = {in};
      a[0].read();
    }
  }

  void listLeak(String k) throws IOException {
    List<InputStream> l = new ArrayList<>();
    l.add(new FileInputStream(k)); // leak
  }

  void listOfHeldOk(String k) throws IOException {
    List<InputStream> l = new ArrayList<>();
    try (InputStream in = new FileInputStream(k)) {
      l.add(in);
    }
  }

  void varargsLeak(String k) throws IOException {
    Arrays.asList(new FileInputStream(k), null); // leak
  }

  void fieldStoreLeak(String k) throws IOException {
    field = new FileInputStream(k); // leak
  }

  void staticStoreLeak(String k) throws IOException {
    kept = new FileInputStream(k); // leak
  }

  void otherFieldStoreLeak(Expressions other, String k) throws IOException {
    other.field = new FileInputStream(k); // leak
  }

  void doubleAssignmentOk(String k) throws IOException {
    InputStream a;
    InputStream b = a = new FileInputStream(k);
    b.close();
  }

  void fieldChainOk(String k) throws IOException {
    InputStream b = field = new FileInputStream(k);
    b.close();
  }

  void overwrittenLocalLeak(String k) throws IOException {
    InputStream in = new FileInputStream(k); // leak
    in = new FileInputStream("y");
    in.close();
  }

  void castOk(String k) throws IOException {
    Object o = new FileInputStream(k);
    ((InputStream) o).close();
  }

  void castLeak(String k) throws IOException {
    Object o = new FileInputStream(k); // leak
  }

  void castCloseableOk(String k) throws IOException {
    Closeable c = (Closeable) (Object) new FileInputStream(k);
    c.close();
  }

  void requireNonNullOk(String k) throws IOException {
    InputStream in = Objects.requireNonNull(new FileInputStream(k), "in");
    in.close();
  }

  void requireNonNullLeak(String k) throws IOException {
    InputStream in = Objects.requireNonNull(new FileInputStream(k)); // leak
  }

  static <X> X same(X x) {
    return x;
  }

  void genericLeak(String k) throws IOException {
    InputStream in = same(new FileInputStream(k)); // leak
    in.close();
  }

  void textBlockOk(String k) throws IOException {
    String s = """
        text
        """;
    try (InputStream in = new FileInputStream(s)) {
      n++;
    }
  }

  void varOk(String k) throws IOException {
    var in = new FileInputStream(k);
    in.close();
  }

  void varLeak(String k) throws IOException {
    var in = new FileInputStream(k); // leak
  }

  void finalVarLeak(final String k) throws IOException {
    final var in = new BufferedInputStream(new FileInputStream(k)); // leak
  }

  void unusualNamesOk(String p, String Rt, String self) throws IOException {
    InputStream S0 = new FileInputStream(Rt);
    InputStream B0 = S0;
    B0.close();
  }

  void b\u00fccherLeak(String k) throws IOException {
    InputStream \u00e4 = new FileInputStream(k); // leak
  }
}

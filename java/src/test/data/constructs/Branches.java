import java.io.*;

/** Conditions, null tests, conditional expressions. */
class Branches {
  int n;
  static final boolean ON = true;
  static final boolean OFF = false;

  void ifOk(String k, boolean b) throws IOException {
    InputStream in = new FileInputStream(k);
    if (b) {
      in.close();
    } else {
      in.close();
    }
  }

  void ifLeak(String k, boolean b) throws IOException {
    InputStream in = new FileInputStream(k); // leak
    if (b) {
      in.close();
    }
  }

  void nullTestOk(String k, boolean b) throws IOException {
    InputStream in = b ? new FileInputStream(k) : null;
    if (in != null) {
      in.close();
    }
  }

  void nullTestReversedOk(String k, boolean b) throws IOException {
    InputStream in = b ? new FileInputStream(k) : null;
    if (null == in) {
      return;
    }
    in.close();
  }

  void nullTestLeak(String k) throws IOException {
    InputStream in = new FileInputStream(k); // leak
    if (in == null) {
      in.close();
    }
  }

  void ternaryLeak(String k, boolean b) throws IOException {
    InputStream in = b ? new FileInputStream(k) : null; // leak
    if (b) {
      return;
    }
    if (in != null) {
      in.close();
    }
  }

  void ternaryTwoOk(String k, boolean b) throws IOException {
    InputStream in = b ? new FileInputStream(k) : new FileInputStream("other");
    in.close();
  }

  void andOk(String k, boolean b) throws IOException {
    InputStream in = b ? new FileInputStream(k) : null;
    if (!(in == null)) {
      in.close();
    }
  }

  void andLeak(String k, boolean b) throws IOException {
    InputStream in = b ? new FileInputStream(k) : null; // leak
    if (in != null && b) {
      in.close();
    }
  }

  void orOk(String k, boolean b) throws IOException {
    InputStream in = b ? new FileInputStream(k) : null;
    if (in == null || n > 3) {
      if (in != null) {
        in.close();
      }
      return;
    }
    in.close();
  }

  void assignedInConditionOk(String k) throws IOException {
    InputStream in;
    if ((in = new FileInputStream(k)) != null) {
      in.close();
    }
  }

  void assignedInConditionLeak(String k) throws IOException {
    InputStream in;
    if ((in = new FileInputStream(k)) != null && n > 0) { // leak
      in.close();
    }
  }

  void constantOk(String k) throws IOException {
    InputStream in = new FileInputStream(k);
    if (ON) {
      in.close();
    }
  }

  void constantLeak(String k) throws IOException {
    InputStream in = new FileInputStream(k); // leak
    if (OFF) {
      in.close();
    }
  }

  void notOk(String k, boolean b) throws IOException {
    InputStream in = new FileInputStream(k);
    if (!b) {
      in.close();
    } else {
      in.close();
    }
  }

  boolean conditionOfCallLeak(String k) throws IOException {
    return new FileInputStream(k).read() > 0; // leak
  }

  void instanceOfOk(Object o) throws IOException {
    if (o instanceof InputStream) {
      ((InputStream) o).close();
    }
  }

  void instanceOfPatternOk(Object o) throws IOException {
    if (o instanceof InputStream in && n > 1) {
      in.close();
    }
  }

  void instanceOfPatternLeak(Object o, String k) throws IOException {
    if (o instanceof String s && new FileInputStream(s).read() > 0) { // leak
      n++;
    }
  }

  void negatedPatternOk(Object o) throws IOException {
    if (!(o instanceof Closeable c)) {
      return;
    }
    c.close();
  }
}

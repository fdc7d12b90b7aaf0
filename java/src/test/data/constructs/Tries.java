import java.io.*;

/** Try statements, resources, catch clauses, throws. */
class Tries {
  int n;

  void resourceOk(String k) throws IOException {
    try (InputStream in = new FileInputStream(k)) {
      n += in.read();
    }
  }

  void twoResourcesOk(String k) throws IOException {
    try (InputStream in = new FileInputStream(k); OutputStream out = new FileOutputStream(k)) {
      out.write(in.read());
    }
  }

  void existingVariableOk(String k) throws IOException {
    InputStream in = new FileInputStream(k);
    try (in) {
      n += in.read();
    }
  }

  void existingVariableLeak(String k) throws IOException {
    InputStream in = new FileInputStream(k); // leak
    n += in.read();
    try (in) {
      n += in.read();
    }
  }

  void finallyOk(String k) throws IOException {
    InputStream in = new FileInputStream(k);
    try {
      n += in.read();
    } finally {
      in.close();
    }
  }

  void finallyNullOk(String k) throws IOException {
    InputStream in = null;
    try {
      in = new FileInputStream(k);
      n += in.read();
    } finally {
      if (in != null) {
        in.close();
      }
    }
  }

  void throwBetweenLeak(String k) throws IOException {
    InputStream in = new FileInputStream(k); // leak
    n += in.read();
    in.close();
  }

  void secondOpenLeak(String k) throws IOException {
    InputStream in = new FileInputStream(k); // leak
    OutputStream out = new FileOutputStream(k); // leak
    in.close();
    out.close();
  }

  void catchOk(String k) {
    try {
      InputStream in = new FileInputStream(k);
      try {
        n += in.read();
      } catch (IOException e) {
        n++;
      }
      in.close();
    } catch (IOException e) {
      n--;
    }
  }

  void catchLeak(String k) {
    InputStream in = null;
    try {
      in = new FileInputStream(k); // leak
      n += in.read();
    } catch (RuntimeException | IOException e) {
      return;
    }
    try {
      in.close();
    } catch (IOException e) {
      n++;
    }
  }

  void multiCatchOk(String k) {
    try (InputStream in = new FileInputStream(k)) {
      Class.forName(k);
    } catch (ClassNotFoundException | IOException e) {
      n++;
    }
  }

  void multiRethrowOk(String k) throws IOException, ClassNotFoundException {
    InputStream in = new FileInputStream(k);
    try {
      Class.forName(k);
      n += in.read();
    } catch (ClassNotFoundException | IOException e) {
      in.close();
      throw e;
    }
    in.close();
  }

  void preciseRethrowOk(String k) throws IOException {
    InputStream in = new FileInputStream(k);
    try {
      n += in.read();
    } catch (Exception e) {
      in.close();
      throw e;
    }
    in.close();
  }

  void preciseRethrowLeak(String k) throws IOException {
    InputStream in = new FileInputStream(k); // leak
    try {
      n += in.read();
    } catch (Throwable e) {
      throw e;
    }
    in.close();
  }

  void wrappedRethrowLeak(String k) throws IOException {
    InputStream in = new FileInputStream(k); // leak
    try {
      n += in.read();
    } catch (IOException e) {
      throw new IllegalStateException(e);
    }
    in.close();
  }

  void wrappedRethrowOk(String k) throws IOException {
    InputStream in = new FileInputStream(k);
    try {
      n += in.read();
    } catch (IOException e) {
      in.close();
      throw new IllegalStateException("bad " + k, e);
    }
    in.close();
  }

  void narrowCatchLeak(String k) throws IOException {
    InputStream in = new FileInputStream(k); // leak
    try {
      n += in.read();
    } catch (FileNotFoundException e) {
      in.close();
      return;
    }
    in.close();
  }

  void declaredUncheckedLeak(String k) throws IOException {
    InputStream in = new FileInputStream(k); // leak
    n = Integer.parseInt(k);
    in.close();
  }

  void returnInFinallyOk(String k) throws IOException {
    InputStream in = new FileInputStream(k);
    try {
      n += in.read();
    } finally {
      in.close();
      return;
    }
  }

  int returnThroughFinallyOk(String k) throws IOException {
    InputStream in = new FileInputStream(k);
    try {
      return in.read();
    } finally {
      in.close();
    }
  }

  void synchronizedOk(String k) throws IOException {
    synchronized (this) {
      try (InputStream in = new FileInputStream(k)) {
        n++;
      }
    }
  }

  void synchronizedLeak(String k) throws IOException {
    synchronized (this) {
      InputStream in = new FileInputStream(k); // leak
    }
  }

  void assertLeak(String k) throws IOException {
    InputStream in = new FileInputStream(k); // leak
    assert in.read() > 0 : "empty";
    in.close();
  }

  void assertOk(String k) throws IOException {
    InputStream in = new FileInputStream(k);
    assert n > 0 : "empty";
    in.close();
  }

  void throwNullOk() {
    throw null;
  }

  void throwLeak(String k, IOException e) throws IOException {
    InputStream in = new FileInputStream(k); // leak
    throw e;
  }

  static class Refused extends Exception {
    final int code;

    Refused(String text, int code) {
      super(text);
      this.code = code;
    }
  }

  void ownExceptionLeak(String k) throws IOException, Refused {
    InputStream in = new FileInputStream(k); // leak
    if (n > 3) {
      throw new Refused("no", n);
    }
    in.close();
  }

  void ownExceptionOk(String k) throws IOException {
    InputStream in = new FileInputStream(k);
    try {
      if (n > 3) {
        throw new Refused("no", n);
      }
    } catch (Refused e) {
      n = e.code;
    }
    in.close();
  }

  void resourceInitialiserLeak(String k) throws IOException {
    try (Reader in = new InputStreamReader(new FileInputStream(k), "UTF-8")) { // leak
      n += in.read();
    }
  }
}

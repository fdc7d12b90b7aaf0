import java.io.FileInputStream;
import java.io.FileOutputStream;
import java.io.IOException;
import java.io.InputStream;
import java.io.OutputStream;

/** Calls of close, each of which is needed. */
class Closes {
  void straight(String name) throws IOException {
    InputStream in = new FileInputStream(name);
    in.close();
  }

  int inFinally(String name) throws IOException {
    InputStream in = new FileInputStream(name);
    try {
      return in.read();
    } finally {
      in.close();
    }
  }

  int underNullTest(String name) throws IOException {
    InputStream in = null;
    try {
      in = new FileInputStream(name);
      return in.read();
    } finally {
      if (in != null) {
        in.close();
      }
    }
  }

  void inBranches(String name, boolean first) throws IOException {
    InputStream in = new FileInputStream(name);
    if (first) {
      in.close();
      return;
    }
    in.close();
  }

  void inSwitch(String name, int n) throws IOException {
    InputStream in = new FileInputStream(name);
    switch (n) {
      case 1:
        in.close();
        break;
      case 2:
      default:
        in.close();
    }
  }

  void inLoop(String[] names) throws IOException {
    for (String name : names) {
      InputStream in = new FileInputStream(name);
      if (name.isEmpty()) {
        in.close();
        continue;
      }
      in.close();
    }
  }

  void inHandler(String name) throws IOException {
    InputStream in = new FileInputStream(name);
    try {
      in.read();
    } catch (IOException e) {
      in.close();
      throw e;
    }
    in.close();
  }

  void two(String from, String to) throws IOException {
    InputStream in = new FileInputStream(from);
    try {
      OutputStream out = new FileOutputStream(to);
      try {
        out.write(in.read());
      } finally {
        out.close();
      }
    } finally {
      in.close();
    }
  }

  Runnable inLambda(String name) {
    return () -> {
      try {
        InputStream in = new FileInputStream(name);
        in.close();
      } catch (IOException e) {
        throw new IllegalStateException(e);
      }
    };
  }
}

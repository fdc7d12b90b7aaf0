import java.io.BufferedReader;
import java.io.FileInputStream;
import java.io.FileOutputStream;
import java.io.IOException;
import java.io.InputStream;
import java.io.InputStreamReader;
import java.io.OutputStream;
import java.net.ServerSocket;
import java.net.Socket;
import java.nio.charset.StandardCharsets;

/** Resources of try statements, each of which is needed. */
class Resources {
  int one(String name) throws IOException {
    try (InputStream in = new FileInputStream(name)) {
      return in.read();
    }
  }

  void two(String from, String to) throws IOException {
    try (InputStream in = new FileInputStream(from);
        OutputStream out = new FileOutputStream(to)) {
      out.write(in.read());
    }
  }

  String wrapped(String name) throws IOException {
    try (BufferedReader in = new BufferedReader(new InputStreamReader(new FileInputStream(name), StandardCharsets.UTF_8))) {
      return in.readLine();
    }
  }

  int withHandler(String name) {
    try (InputStream in = new FileInputStream(name)) {
      return in.read();
    } catch (IOException e) {
      return -1;
    }
  }

  int withFinally(String name) throws IOException {
    int n = 0;
    try (InputStream in = new FileInputStream(name)) {
      n = in.read();
    } finally {
      n++;
    }
    return n;
  }

  void nested(int port) throws IOException {
    try (ServerSocket server = new ServerSocket(port)) {
      while (port > 0) {
        try (Socket socket = server.accept()) {
          socket.getInputStream().read();
        }
      }
    }
  }

  void both(String name) throws IOException {
    InputStream first = new FileInputStream(name);
    try (InputStream second = new FileInputStream(name)) {
      second.read();
    } finally {
      first.close();
    }
  }
}

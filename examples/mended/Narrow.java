import java.io.IOException;
import java.net.Socket;

class Narrow {
    static void keep(@Owning Socket any) throws IOException {
        any.close();
    }

    static void main(String[] args) throws IOException {
        keep(new Socket("localhost", 80));
    }
}

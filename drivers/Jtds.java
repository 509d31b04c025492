import java.sql.Connection;
import java.sql.DriverManager;
import java.sql.SQLException;

/** jTDS, which speaks TDS 7.1 (its "8.0") and 7.0: Jtds PORT PACED_PORT, or Jtds NAME=PORT.., each a place that it comes to. */
public class Jtds {
    static void connect(String place, String port, String tds, String ssl) {
        String url = "jdbc:jtds:sqlserver://127.0.0.1:" + port + "/main;tds=" + tds + ";ssl=" + ssl
            + ";loginTimeout=5;socketTimeout=5";
        try (Connection connection = DriverManager.getConnection(url, "a", "b")) {
            System.out.println(place + ": connected");
        } catch (SQLException error) {
            System.out.println(place + ": " + error.getErrorCode() + " " + error.getMessage());
        }
    }

    public static void main(String[] words) throws Exception {
        Class.forName("net.sourceforge.jtds.jdbc.Driver");
        if (words[0].contains("=")) {
            for (String word : words) {
                connect(word.split("=")[0], word.split("=")[1], "8.0", "off");
            }
            return;
        }
        for (String tds : new String[] {"8.0", "7.0"}) {
            for (String ssl : new String[] {"off", "request", "require"}) {
                connect("tds " + tds + ", ssl " + ssl, words[0], tds, ssl);
            }
        }
    }
}

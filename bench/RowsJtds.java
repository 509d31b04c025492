import java.lang.management.ManagementFactory;
import java.lang.management.ThreadMXBean;
import java.sql.Connection;
import java.sql.DriverManager;
import java.sql.ResultSet;
import java.sql.SQLException;
import java.sql.Statement;

/**
 * Reads the rows of rows_server by jTDS, and sums the values: RowsJtds PORT COLUMNS TIMES. It prints
 * as rows_freetds does; the processor's time is that of the thread that reads.
 */
public class RowsJtds {
    public static void main(String[] words) throws Exception {
        Class.forName("net.sourceforge.jtds.jdbc.Driver");
        String url = "jdbc:jtds:sqlserver://127.0.0.1:" + words[0] + "/main;tds=8.0;ssl=off";
        int columns = Integer.parseInt(words[1]);
        try (Connection connection = DriverManager.getConnection(url, "a", "b");
                Statement statement = connection.createStatement()) {
            System.out.println("jTDS " + connection.getMetaData().getDriverVersion() + ", TDS 7.1, Java "
                + System.getProperty("java.version"));
            for (int times = Integer.parseInt(words[2]); times > 0; times--) {
                readRows(statement, columns);
            }
        }
    }

    private static void readRows(Statement statement, int columns) throws SQLException {
        ThreadMXBean threads = ManagementFactory.getThreadMXBean();
        try (ResultSet result = statement.executeQuery("rows " + columns)) {
            long rows = 0;
            long sum = 0;
            long start = System.nanoTime();
            long worked = threads.getCurrentThreadCpuTime();
            while (result.next()) {
                rows++;
                for (int column = 1; column <= columns; column++) {
                    sum += Integer.toUnsignedLong(result.getInt(column));
                }
            }
            long wall = System.nanoTime() - start;
            System.out.println(wall + " " + (threads.getCurrentThreadCpuTime() - worked) + " " + rows + " " + sum);
        }
    }
}

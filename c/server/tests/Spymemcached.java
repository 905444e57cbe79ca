/* spymemcached's calls (Debian: libspymemcached-java) by both protocols, and what memcached answers to them.
 *
 *     java -cp /usr/share/java/spymemcached.jar Spymemcached.java PORT    status 1: an answer was another one */
import java.net.InetSocketAddress;
import java.util.Arrays;
import java.util.HashMap;
import java.util.List;
import java.util.Map;
import java.util.Objects;
import java.util.concurrent.TimeUnit;
import net.spy.memcached.BinaryConnectionFactory;
import net.spy.memcached.CASResponse;
import net.spy.memcached.CASValue;
import net.spy.memcached.ConnectionFactory;
import net.spy.memcached.DefaultConnectionFactory;
import net.spy.memcached.MemcachedClient;

class Spymemcached {
  static final StringBuilder wrong = new StringBuilder();

  static void same(String what, Object got, Object wanted) {
    if (!Objects.equals(got, wanted)) wrong.append(what + ": " + got + ", not " + wanted + "\n");
  }

  static void store(MemcachedClient client, String name) throws Exception {
    same(name + "set", client.set("a", 0, "1").get(), true);
    same(name + "get", client.get("a"), "1");
    same(name + "get of nothing", client.get("nothing"), null);
    same(name + "add", client.add("a", 0, "2").get(), false);
    same(name + "add of a new one", client.add("b", 0, "3").get(), true);
    same(name + "replace", client.replace("b", 0, "4").get(), true);
    same(name + "replace of nothing", client.replace("nothing", 0, "4").get(), false);
    same(name + "append", client.append("b", "5").get(), true);
    same(name + "prepend", client.prepend("b", "3").get(), true);
    same(name + "get behind them", client.get("b"), "345");
    CASValue<Object> value = client.gets("a");
    same(name + "gets", value.getValue(), "1");
    same(name + "cas", client.cas("a", value.getCas(), "9"), CASResponse.OK);
    same(name + "cas again", client.cas("a", value.getCas(), "8"), CASResponse.EXISTS);
    same(name + "cas of nothing", client.cas("nothing", value.getCas(), "8"), CASResponse.NOT_FOUND);
    same(name + "touch", client.touch("a", 100).get(), true);
    same(name + "touch of nothing", client.touch("nothing", 100).get(), false);
    same(name + "an object, by the flags", client.set("o", 0, List.of(1, 2)).get(), true);
    same(name + "the object", client.get("o"), List.of(1, 2));
  }

  static void count(MemcachedClient client, String name) throws Exception {
    same(name + "incr", client.incr("n", 5, 10), 10L);
    same(name + "incr again", client.incr("n", 5), 15L);
    same(name + "decr", client.decr("n", 20), 0L);
    same(name + "incr of nothing", client.incr("nothing", 1), -1L);
    same(name + "delete", client.delete("n").get(), true);
    same(name + "delete of nothing", client.delete("n").get(), false);
  }

  static void many(MemcachedClient client, String name) throws Exception {
    Map<String, Object> all = new HashMap<>();
    for (int i = 0; i < 500; i++) all.put("m" + i, "value " + i);
    for (Map.Entry<String, Object> one : all.entrySet()) client.set(one.getKey(), 0, one.getValue());
    String[] keys = new String[600];
    for (int i = 0; i < 600; i++) keys[i] = "m" + i;
    same(name + "get of 600 keys", client.getBulk(keys), all);
    byte[] big = new byte[900_000];
    new java.util.Random(3).nextBytes(big);
    same(name + "set of a large value", client.set("big", 0, big).get(), true);
    same(name + "get of a large value", Arrays.equals((byte[]) client.get("big"), big), true);
    Map<String, String> stats = client.getStats().values().iterator().next();
    same(name + "stats", stats.get("version"), client.getVersions().values().iterator().next());
    same(name + "flush", client.flush().get(), true);
    same(name + "get behind a flush", client.get("a"), null);
  }

  static void ask(ConnectionFactory how, int port, String name) throws Exception {
    MemcachedClient client = new MemcachedClient(how, List.of(new InetSocketAddress("127.0.0.1", port)));
    client.flush().get();
    store(client, name);
    count(client, name);
    many(client, name);
    client.shutdown(10, TimeUnit.SECONDS);
  }

  public static void main(String[] words) throws Exception {
    System.setProperty("net.spy.log.LoggerImpl", "net.spy.memcached.compat.log.SunLogger");
    java.util.logging.Logger.getLogger("net.spy.memcached").setLevel(java.util.logging.Level.WARNING);
    ask(new DefaultConnectionFactory(), Integer.parseInt(words[0]), "text: ");
    ask(new BinaryConnectionFactory(), Integer.parseInt(words[0]), "binary: ");
    System.out.print(wrong.length() > 0 ? wrong : "all right\n");
    System.exit(wrong.length() > 0 ? 1 : 0);
  }
}

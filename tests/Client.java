import java.net.URI;
import java.net.http.HttpClient;
import java.net.http.HttpRequest;
import java.net.http.HttpResponse;
import java.util.ArrayList;
import java.util.regex.Pattern;

/** Calls a service by Java's client. Prints what each call was told: its status, and the state of the invocation shown. */
class Client {
    static final HttpClient CLIENT = HttpClient.newBuilder().version(HttpClient.Version.HTTP_1_1).build();
    static final Pattern STATE = Pattern.compile("\"state\":\"([A-Z]+)\"");

    static HttpRequest request(String port, String method, String body) {
        var service = method.startsWith("Get") ? "ResultDB" : "Recorder";
        return HttpRequest.newBuilder(URI.create("http://127.0.0.1:" + port + "/prpc/luci.resultdb.v1." + service + "/" + method))
            .header("Authorization", "Bearer tok-a")
            .POST(HttpRequest.BodyPublishers.ofString(body))
            .build();
    }

    static void show(HttpResponse<String> reply) {
        var state = STATE.matcher(reply.body());
        System.out.println(reply.statusCode() + " " + (state.find() ? state.group(1) : reply.body().trim()));
    }

    static void call(String port, String method, String body) throws Exception {
        show(CLIENT.send(request(port, method, body), HttpResponse.BodyHandlers.ofString()));
    }

    public static void main(String[] words) throws Exception {
        var created = "{\"invocationId\":\"u-a\",\"invocation\":{\"realm\":\"proj:ci\",\"tags\":[{\"key\":\"who\",\"value\":\"é€😀\"}]}}";
        call(words[0], "CreateInvocation", created);
        call(words[0], "CreateInvocation", created);
        var asked = new ArrayList<java.util.concurrent.CompletableFuture<HttpResponse<String>>>();
        for (int n = 0; n < 8; n++) {
            var request = request(words[0], "GetInvocation", "{\"name\":\"invocations/u-a\"}");
            asked.add(CLIENT.sendAsync(request, HttpResponse.BodyHandlers.ofString()));
        }
        for (var each : asked) {
            show(each.get());
        }
        call(words[0], "GetInvocation", "{\"name\":\"invocations/u-b\"}");
    }
}

// Calls a service by Node's fetch. Prints what each call was told: its status, and the state of the invocation shown.
const [port] = process.argv.slice(2);

async function call(method, body) {
  const service = method.startsWith("Get") ? "ResultDB" : "Recorder";
  const reply = await fetch(`http://127.0.0.1:${port}/prpc/luci.resultdb.v1.${service}/${method}`, {
    method: "POST",
    headers: { Authorization: "Bearer tok-a", "Content-Type": "application/json" },
    body: JSON.stringify(body),
  });
  const text = await reply.text();
  console.log(reply.status, reply.ok ? JSON.parse(text.slice(5)).state : text.trim());
}

const created = { invocationId: "u-a", invocation: { realm: "proj:ci", tags: [{ key: "who", value: "é€😀" }] } };
await call("CreateInvocation", created);
await call("CreateInvocation", created);
await Promise.all(Array.from({ length: 8 }, () => call("GetInvocation", { name: "invocations/u-a" })));
await call("GetInvocation", { name: "invocations/u-b" });

// A client by node-ws for bench/clients.py: sends each line of its input as a text message, and prints what comes, each line with the milliseconds of its clock. It connects again until its input ends.
// usage: clients_ws.js URL
"use strict";
const WebSocket = require("ws");
const {version} = require("ws/package.json");
const readline = require("readline");

const tell = (kind, rest) => console.log(`${Date.now()} ${kind} ${rest}`);
let socket = null;
let over = false;

function connect() {
  socket = new WebSocket(process.argv[2]);
  socket.on("open", () => tell("open", `ws ${version}`));
  socket.on("message", data => tell("text", data.toString()));
  socket.on("error", () => {});
  socket.on("close", code => {
    tell("closed", code);
    if (!over) setTimeout(connect, 100);
  });
}

const lines = readline.createInterface({input: process.stdin});
lines.on("line", line => { if (socket.readyState === WebSocket.OPEN) socket.send(line); });
lines.on("close", () => {
  over = true;
  socket.close(1000);
});
connect();

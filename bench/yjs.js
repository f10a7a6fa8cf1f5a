// Replays the trace of bench/trace.c by a Y.Array of Yjs, and times each call: on a document whose updates are
// the patches (local), and on one that applies them (remote). Every round has the same edits, so of each call
// the least time of the rounds counts, as in bench/ours.c; the first rounds, before the code is compiled, and
// the collector's pauses thereby hardly count, which is in its favour. Prints lines of system, kind, rows in
// use and nanoseconds, and the checksum of the script at the end. Fails where the two documents end unlike.
'use strict'
const fs = require('fs')
const { performance } = require('perf_hooks')
const Y = require('yjs')

const FILL = 511
const BIN = 32
const ROUNDS = 10

function readTrace (name) {
  return fs.readFileSync(name, 'utf8').trimEnd().split('\n').map(line => {
    const [sign, row, , text] = line.split(' ')
    return { sign, row: Number(row), text }
  })
}

const now = () => performance.now() * 1e6

// What two readings of the clock cost by themselves: it is taken off each call's time.
function costOfClock () {
  let least = Infinity
  for (let i = 0; i < 1000000; i++) {
    const began = now()
    least = Math.min(least, now() - began)
  }
  return least
}

function startDocument (site) {
  const doc = new Y.Doc()
  doc.clientID = site
  return doc
}

function editHere (script, edit) {
  if (edit.sign === '-') script.delete(edit.row)
  else script.insert(edit.row, [edit.text])
}

// An insert or delete is a transaction of its own; when it ends, the listener gets the update.
function localRound (edits, least, clockCost) {
  const doc = startDocument(1)
  const script = doc.getArray('script')
  const updates = []
  doc.on('update', update => updates.push(update))
  edits.forEach((edit, i) => {
    const began = now()
    editHere(script, edit)
    least[i] = Math.min(least[i], now() - began - clockCost)
  })
  return { texts: script.toArray(), updates }
}

function remoteRound (updates, least, clockCost) {
  const doc = startDocument(2)
  const script = doc.getArray('script')
  updates.forEach((update, i) => {
    const began = now()
    Y.applyUpdate(doc, update)
    least[i] = Math.min(least[i], now() - began - clockCost)
  })
  return script.toArray()
}

const mean = times => times.reduce((sum, time) => sum + time, 0) / times.length

// Call i of the fill meets i rows in use; after the fill, strikes and adds take turns.
function printTimes (kind, times) {
  for (let from = 0; from < FILL; from += BIN) {
    const to = Math.min(from + BIN, FILL)
    const rows = Math.floor((from + to) / 2)
    console.log(`yjs fill-${kind} ${rows} ${mean(times.slice(from, to)).toFixed(1)}`)
  }
  const changes = times.slice(FILL)
  const strikes = changes.filter((_, i) => i % 2 === 0)
  const adds = changes.filter((_, i) => i % 2 === 1)
  console.log(`yjs ${kind}-strike ${FILL} ${mean(strikes).toFixed(1)}`)
  console.log(`yjs ${kind}-add ${FILL - 1} ${mean(adds).toFixed(1)}`)
}

// FNV-1a of 32 bits over the texts in the order of the script.
function checksum (texts) {
  const add = (sum, byte) => Math.imul(sum ^ byte, 16777619)
  return Buffer.from(texts.join('')).reduce(add, 2166136261) >>> 0
}

function main () {
  const edits = readTrace(process.argv[2])
  const clockCost = costOfClock()
  const local = edits.map(() => Infinity)
  const remote = edits.map(() => Infinity)
  let texts
  for (let round = 0; round < ROUNDS; round++) {
    const made = localRound(edits, local, clockCost)
    texts = made.texts
    if (remoteRound(made.updates, remote, clockCost).join() !== texts.join()) {
      throw new Error('the two documents end unlike')
    }
  }
  printTimes('local', local)
  printTimes('remote', remote)
  console.log(`yjs checksum ${texts.length} ${checksum(texts)}`)
}

main()

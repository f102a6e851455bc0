-- The ten workloads for Lua 5.4: lua5.4 workloads.lua NAME [hook [COUNT]]. With a hook a budget is taken down each COUNT instructions.
local name, hook, count = arg[1], arg[2], tonumber(arg[3] or "1000")
local M = 0xFFFFFFFF
local input, at, out = nil, 1, {}
local function get() local b = string.byte(input, at); if b then at = at + 1; return b end; return -1 end
local function put(b) out[#out + 1] = string.char(b) end
local w = {}
function w.loops() local a = 0; for i = 2000, 1, -1 do for j = 5000, 1, -1 do a = (a + j) & M; a = a ~ (a << 3 & M) end end; return a end
function w.sieve()
  local n, c, d = 131072, 0, {}
  for _ = 1, 20 do
    for k = n, 1, -1 do d[k] = 0 end
    for p = 2, 362 do if d[p + 1] == 0 then for m = p * p, n - 1, p do d[m + 1] = 1 end end end
    c = 0
    for k = n, 1, -1 do c = c + d[k] end
  end
  return c
end
function w.crc()
  local t, c = {}, M
  for i = 255, 0, -1 do local x = i; for _ = 1, 8 do x = x >> 1 ~ (-(x & 1) & 0xEDB88320) end; t[i] = x end
  for _ = 4000000, 1, -1 do local b = get(); if b < 0 then break end; c = c >> 8 ~ t[(c ~ b) & 255] end
  return c ~ M
end
w.crcpage1 = w.crc
function w.echo() for _ = 4000000, 1, -1 do local b = get(); if b < 0 then break end; put(b) end end
function w.chain()
  local f = {}
  local g = function(x) return x + 1 & M end
  for i = 38, 1, -1 do local h = g; g = function(x) return h(x ~ i) + 1 & M end end
  local a = 0
  for i = 30000, 1, -1 do a = g(a + i & M) end
  return a
end
local function framed(x) return x + (x << 3) & M end
local function leaf(x) return x ~ x >> 5 end
function w.calls() local a = 1; for i = 3000000, 1, -1 do a = leaf(framed(a) ~ i) end; return a end
local function signed(x) return x >= 0x80000000 and x - 0x100000000 or x end
function w.muldiv()
  local x, a = 1, 0
  for _ = 3000000, 1, -1 do
    local p = x * 1103515245
    x = p + 1013 & M; a = a ~ (p >> 32 & M)
    local b = x >> 16 | 1
    a = a + x // b & M
    local sx = signed(x)
    local q = sx // b; if q < 0 and q * b ~= sx then q = q + 1 end
    local s = q & M
    a = a ~ s; a = a + x - s * b & M
  end
  return a
end
function w.copy()
  local d = {}
  for k = 0, 32767 do d[k] = 0 end
  d[8] = 77
  for _ = 1500, 1, -1 do for k = 8191, 0, -1 do d[8192 + k] = d[k] end end
  return d[8192 + 8]
end
function w.stride()
  local d, v = {}, 0
  for k = 0, 63 do d[k] = 0 end
  for _ = 150000, 1, -1 do for k = 63, 0, -1 do v = d[k] + 1 & M; d[k] = v end end
  return v
end
if name:find("crc") or name == "echo" then input = io.read("a") end
if hook == "hook" then local left = 1 << 40; debug.sethook(function() left = left - count; if left < 0 then error("fuel") end end, "", count) end
local c = w[name]()
debug.sethook()
if name == "echo" then io.write(table.concat(out)) else io.write(string.char(c >> 24 & 255, c >> 16 & 255, c >> 8 & 255, c & 255)) end

// How both programs here show a text and a length.
#pragma once
#include <cstdio>
#include <string>

// Messages may end in a newline and repeat bytes of the text: one line of ASCII is made of them.
inline std::string shown(const std::string& text) {
  std::string out;
  for (unsigned char c : text) {
    char octal[8];
    snprintf(octal, sizeof octal, "\\0%03o", c);
    if (c == '\n') out += ' ';
    else out += c >= 32 && c < 127 ? std::string(1, c) : std::string(octal);
  }
  while (!out.empty() && out.back() == ' ') out.pop_back();
  return out;
}

// Metres to a tenth of a micrometre, the last zeros left out.
inline std::string metres(double x) {
  char text[64];
  snprintf(text, sizeof text, "%.7f", x);
  std::string out = text;
  if (out.find('.') == std::string::npos) return out;
  out.erase(out.find_last_not_of('0') + 1);
  if (out.back() == '.') out.pop_back();
  return out;
}

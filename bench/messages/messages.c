/* Writes a response with snprintf into one buffer, beside which bench/messages/run times crates/bench. Words: the command, how
   many entries its body has, and how often it is written; the last text is printed. The texts need no escapes, and none are looked for. */
#include <stdint.h>
#include <stdio.h>
#include <stdlib.h>
#include <string.h>

static char buffer[1 << 20];
static size_t length;

#define PUT(...) (length += (size_t)snprintf(buffer + length, sizeof buffer - length, __VA_ARGS__))

static void variables(uint32_t count)
{
    PUT("{\"variables\":[");
    for (uint32_t i = 0; i < count; i++)
        PUT("%s{\"name\":\"x%u\",\"value\":\"0x%08x\",\"variablesReference\":0}", i ? "," : "", i, i * 0x01010101u);
    PUT("]}");
}

static void stack_trace(uint32_t count)
{
    PUT("{\"stackFrames\":[");
    for (uint32_t i = 0; i < count; i++)
        PUT("%s{\"column\":1,\"id\":%u,\"instructionPointerReference\":\"0x%08x\",\"line\":%u,\"name\":\"f+%u\",\"source\":{\"name\":\"%s\","
            "\"path\":\"%s\"}}", i ? "," : "", i, 65536 + 4 * i, i, 4 * i, "program.s", "/home/user/program.s");
    PUT("],\"totalFrames\":%u}", count);
}

static void disassemble(uint32_t count)
{
    PUT("{\"instructions\":[");
    for (uint32_t i = 0; i < count; i++) {
        uint32_t word = (i & 0xfff) << 20 | 0x00050513;
        PUT("%s{\"address\":\"0x%08x\",\"instruction\":\"addi a0, a0, %d\",\"instructionBytes\":\"%02x %02x %02x %02x\"}", i ? "," : "", 65536 + 4 * i,
            (int32_t)word >> 20, word & 255, word >> 8 & 255, word >> 16 & 255, word >> 24);
    }
    PUT("]}");
}

/* Bytes in base64, with no snprintf. */
static void read_memory(uint32_t count)
{
    static const char symbols[] = "ABCDEFGHIJKLMNOPQRSTUVWXYZabcdefghijklmnopqrstuvwxyz0123456789+/";
    static uint8_t memory[1 << 16];
    if (memory[1] == 0)
        for (uint32_t i = 0; i < sizeof memory; i++)
            memory[i] = (uint8_t)(i * i % 251);
    PUT("{\"address\":\"0x%08x\",\"data\":\"", 65536u);
    for (uint32_t i = 0; i < count; i += 3) {
        uint32_t left = count - i, group = (uint32_t)memory[i] << 16;
        if (left > 1)
            group |= (uint32_t)memory[i + 1] << 8;
        if (left > 2)
            group |= memory[i + 2];
        char *at = buffer + length;
        at[0] = symbols[group >> 18];
        at[1] = symbols[group >> 12 & 63];
        at[2] = left > 1 ? symbols[group >> 6 & 63] : '=';
        at[3] = left > 2 ? symbols[group & 63] : '=';
        length += 4;
    }
    PUT("\"}");
}

static const struct { const char *name; void (*body)(uint32_t); } commands[] = {
    { "variables", variables },
    { "stackTrace", stack_trace },
    { "disassemble", disassemble },
    { "readMemory", read_memory },
};

static int is_written(const char *command, uint32_t count)
{
    for (size_t i = 0; i < sizeof commands / sizeof *commands; i++)
        if (strcmp(commands[i].name, command) == 0) {
            length = 0;
            PUT("{\"body\":");
            commands[i].body(count);
            PUT(",\"command\":\"%s\",\"request_seq\":%u,\"seq\":%u,\"success\":%s,\"type\":\"response\"}", command, 2000000u, 2000001u, "true");
            return length < sizeof buffer;
        }
    return 0;
}

int main(int count, char **words)
{
    if (count != 4) {
        fprintf(stderr, "usage: messages COMMAND COUNT ROUNDS\n");
        return 2;
    }
    for (long rounds = atol(words[3]); rounds > 0; rounds--)
        if (!is_written(words[1], (uint32_t)atol(words[2])))
            return 1;
    return fwrite(buffer, 1, length, stdout) != length;
}

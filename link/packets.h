/* Packets of RMAP (ECSS-E-ST-50-52C) without a reply address, from 67 to FE with key 00, for the programs here. */
#ifndef PACKETS_H
#define PACKETS_H

#include "sandbarstove.h"

#include <string.h>

/* A header and its CRC: 16 bytes. */
static inline size_t put_header(uint8_t *packet, uint8_t instruction, uint16_t transaction, uint8_t extended,
                                uint32_t address, uint32_t length) {
  const uint8_t bytes[15] = {0xFE, 0x01, instruction, 0x00, 0x67, (uint8_t)(transaction >> 8), (uint8_t)transaction,
                             extended, (uint8_t)(address >> 24), (uint8_t)(address >> 16), (uint8_t)(address >> 8),
                             (uint8_t)address, (uint8_t)(length >> 16), (uint8_t)(length >> 8), (uint8_t)length};
  memcpy(packet, bytes, sizeof bytes);
  packet[15] = sandbar_crc(packet, 15);
  return 16;
}

/* A write with reply and rising addresses, not verified before it is done, with the CRC of its data behind them. */
static inline size_t put_write(uint8_t *packet, uint16_t transaction, uint8_t extended, uint32_t address,
                               const uint8_t *data, uint32_t length) {
  size_t at = put_header(packet, 0x6C, transaction, extended, address, length);
  memcpy(packet + at, data, length);
  packet[at + length] = sandbar_crc(data, length);
  return at + length + 1;
}

/* A read with rising addresses. */
static inline size_t put_read(uint8_t *packet, uint16_t transaction, uint8_t extended, uint32_t address,
                              uint32_t length) {
  return put_header(packet, 0x4C, transaction, extended, address, length);
}

/* The image of `mov r0, VERDICT; exit`, with a budget of 2: it gives every command that verdict, 0 for yes. */
#define IMAGE_OF(verdict)                                                                                            \
  { 0x42, 0x50, 0x46, 0x41, 1, 0, 2, 0, 2, 0, 0, 0, 0, 0, 0, 0, 0xB7, 0, 0, 0, (verdict), 0, 0, 0, 0x95, 0, 0, 0, 0, \
    0, 0, 0 }

#endif

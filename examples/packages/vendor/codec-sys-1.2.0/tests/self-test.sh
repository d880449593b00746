#!/bin/sh
exec ./configure --self-test

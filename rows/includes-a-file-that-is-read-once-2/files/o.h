#pragma once
extern int o;
